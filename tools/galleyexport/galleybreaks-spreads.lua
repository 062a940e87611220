-- Makes the pages longer or shorter that `galley-pages best --spreads` chose. NAME.spreads has a line for each column that
-- is changed: `enlarge LINE page N by SIZE before NAME`. Before the box of that line goes an insertion, as \enlargethispage
-- makes it. It is put in only where the box has the name that the file says, which tells its number and first words.
local nodes = galleyexport.nodes

local M = {}

local wanted = {}       -- by the number of a record: what goes before it
local all = {}          -- all of these, in order
local insertions = {}   -- by size: the insertion that is copied

-- The line of the galley and what goes there, if this line of a file tells it.
function M.read(line)
  local at, by, name = line:match("^enlarge (%d+) page %d+ by (-?%d+) before (%S+)$")
  if not at then return nil end
  all[#all + 1] = { by = tonumber(by), name = name, done = false }
  return tonumber(at), all[#all]
end

-- The record with this number is the one that a line begins with, for which there may be something.
function M.want(number, enlargement) wanted[number] = enlargement end

-- The document begins: TeX is to make an insertion for each size.
function M.make()
  for _, it in ipairs(all) do
    if not insertions[it.by] then
      insertions[it.by] = true
      tex.sprint(string.format("\\csname gb@enlargement\\endcsname{%d}", it.by))
    end
  end
end

-- TeX made the insertion of a size, in a box.
function M.made(by, box) insertions[by] = node.copy(tex.box[box].head) end

-- A node is contributed, with a record of this number, and of this name if it is a box or rule.
function M.put(n, number, name)
  local it = wanted[number]
  wanted[number] = nil
  if not it or it.name ~= name or not insertions[it.by] then return end
  nodes.put_before(n, node.copy(insertions[it.by]))
  it.done = true
end

-- The document has ended: how many columns were made longer or shorter, and which were not.
function M.finish()
  if #all == 0 then return end
  local put, left = 0, {}
  for _, it in ipairs(all) do
    if it.done then put = put + 1 else left[#left + 1] = it.name end
  end
  texio.write_nl("term and log", string.format("galleybreaks: %d of %d columns were made longer or shorter", put, #all))
  for _, name in ipairs(left) do
    texio.write_nl("term and log", string.format(
      "Package galleybreaks Warning: no other height at %s: the text has changed since it was chosen.", name))
  end
  texio.write_nl("term and log", "")
end

return M
