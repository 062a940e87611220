-- Puts the page breaks that `galley_pages --mode best` chose into the document: NAME.best has them by lines of the galley,
-- and NAME.galleymap, which galleyexport wrote in the run before, the record that each line begins with. When the node of
-- that record is contributed, the penalty -10000 goes right before it. Where there is NAME.spreads, it is read in place of
-- NAME.best; galleybreaks-spreads puts in what it has besides breaks.
--
-- If the text has changed since NAME.best was made, a line may be another one now. So a break is put in only where the
-- last box before it has the name that NAME.best says: a box's name is its number and its first words.
local nodes = galleyexport.nodes
local spreads = require("galleybreaks-spreads")
local FORCED = -10000

local M = {}

local wanted = {}       -- by the number of a record: the break before it
local left = {}         -- the breaks that are not put in, by their order; put in ones are taken out
local chosen, put = 0, 0

-- Calls `see` with each line of a file. Returns whether the file is there.
local function each_line(path, see)
  local file = io.open(path)
  if not file then return false end
  for line in file:lines() do see((line:gsub("\r$", ""))) end
  file:close()
  return true
end

-- Reads the breaks, and the records before which they go. A name with spaces has quotes round it in TeX, and none in a folder.
function M.begin()
  local job, by_line, higher = tex.jobname:gsub('"', ""), {}, {}
  local function take(line)
    local place, enlargement = spreads.read(line)
    if place then higher[place] = enlargement end
    local at, page, after = line:match("^break (%d+) page (%d+) after (%S+)$")
    if not at then return end
    chosen = chosen + 1
    by_line[tonumber(at)] = { order = chosen, page = tonumber(page), after = after }
    left[chosen] = by_line[tonumber(at)]
  end
  if not each_line(job .. ".spreads", take) then each_line(job .. ".best", take) end
  each_line(job .. ".galleymap", function(line)
    local at, number = line:match("^(%d+) (%d+)$")
    if not at then return end
    wanted[tonumber(number)] = by_line[tonumber(at)]
    spreads.want(tonumber(number), higher[tonumber(at)])
  end)
end

-- The name that a box or rule has in the galley; nil for other records.
local function name_of(record)
  if record.kind ~= "box" and record.kind ~= "rule" then return nil end
  return record.empty and "e" .. record.id or record.name
end

-- Whether the last box or rule before the last record has this name. An empty box may be a float's, which is no line.
local function is_after(name)
  if name == "-" then return true end      -- nothing of the document stands before it
  for k = #nodes.records - 1, 1, -1 do
    local own = name_of(nodes.records[k])
    if own == name then return true end
    if own and not nodes.records[k].empty then return false end
  end
  return false
end

-- A node is contributed: a break goes before it, if one is chosen there, or what makes its page longer or shorter.
function nodes.contributed(n, record)
  spreads.put(n, record.id, name_of(record))
  local it = wanted[record.id]
  if not it then return end
  wanted[record.id] = nil
  if not is_after(it.after) then return end
  local penalty = node.new("penalty")
  penalty.penalty = FORCED
  nodes.put_before(n, penalty)
  left[it.order] = nil
  put = put + 1
end

-- The document has ended: how many breaks were put in, and which were not.
function M.finish()
  spreads.finish()
  if chosen == 0 then return end
  texio.write_nl("term and log", string.format("galleybreaks: %d of %d page breaks were put in", put, chosen))
  for order = 1, chosen do
    local it = left[order]
    if it then
      texio.write_nl("term and log", string.format(
        "Package galleybreaks Warning: no page break after %s: the text has changed since it was chosen.", it.after))
    end
  end
  texio.write_nl("term and log", "")
end

M.spreads = spreads

return M
