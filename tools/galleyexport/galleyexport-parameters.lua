-- Parameters. All are read for each column that LaTeX makes. Where one that counts for the pages changes at a clear, nothing
-- is left over from before, and it is set there; of the others the value of most columns is written. What may change on any
-- page is looked at each time the page builder runs, and set where it changes. The parameters of version 3 of the galley are
-- written if a document gives one of them another value than the kernel has, or needs another line of that version.
local log = require("galleyexport-log")
local nodes = require("galleyexport-nodes")

local M = {}

local MAX_DIMEN = 1073741823
local NO_GLUE = "0 plus 0 minus 0"
local ORDERS = { [0] = "", "sfil", "sfil", "sfill", "sfilll" }

-- In the order of the galley: name, form, least and greatest value. `part`: it is set at a clear where it changes;
-- `command`: what the column's maker puts by it, whose meaning is looked at.
local ROWS = {
  { "textheight", "number", 1, MAX_DIMEN, part = true }, { "topskip", "number", 1, MAX_DIMEN },
  { "maxdepth", "number", 0, MAX_DIMEN, part = true }, { "baselineskip", "number", 0, MAX_DIMEN },
  { "bottom", "text", command = "@textbottom" },
  { "topnumber", "number", 0, 1000, part = true }, { "bottomnumber", "number", 0, 1000, part = true },
  { "totalnumber", "number", 0, 1000, part = true }, { "dbltopnumber", "number", 0, 1000, part = true },
  { "topfraction", "fraction", part = true }, { "bottomfraction", "fraction", part = true },
  { "textfraction", "fraction", part = true }, { "floatpagefraction", "fraction", part = true },
  { "dbltopfraction", "fraction", part = true }, { "dblfloatpagefraction", "fraction", part = true },
  { "floatsep", "text", part = true }, { "textfloatsep", "text", part = true }, { "intextsep", "text", part = true },
  { "dblfloatsep", "text", part = true }, { "dbltextfloatsep", "text", part = true },
  { "fptop", "text", part = true }, { "fpsep", "text", part = true }, { "fpbot", "text", part = true },
  { "dblfptop", "text", part = true }, { "dblfpsep", "text", part = true }, { "dblfpbot", "text", part = true },
  { "skipfootins", "text", part = true }, { "footlimit", "number", 0, MAX_DIMEN, part = true },
  { "footsplittop", "number", 0, MAX_DIMEN, part = true }, { "footsplitdepth", "number", 0, MAX_DIMEN },
  { "footfloating", "number", -100000, 100000 },
  { "splittopskip", "number", 0, MAX_DIMEN, part = true }, { "splitmaxdepth", "number", 0, MAX_DIMEN, part = true },
  { "floatingpenalty", "number", -100000, 100000 }, { "interlinepenalty", "number", -9999, 10000 },
  { "parskip", "text" }, { "marginparpush", "number", 0, MAX_DIMEN, part = true },
  { "mparswitch", "text", part = true }, { "reversemargin", "text", part = true },
  { "pool", "number", 2, 4096 }, { "maxdeadcycles", "number", 1, 1000000 },
  { "footfactor", "factor" },
}

-- Those of version 3 come after these, with the value that a galley of an earlier version has; `notes`: footnotes alone
-- are set by it. A rule is the room above it, its height, and the room below it.
for _, row in ipairs {
  { "texttop", "text", kernel = NO_GLUE, command = "@texttop" },
  { "textbottom", "text", kernel = NO_GLUE, command = "@textbottom" },
  { "footrule", "text", kernel = "-196608 26214 170394", notes = true, command = "footnoterule" },
  { "toprule", "text", kernel = "none", command = "topfigrule" },
  { "bottomrule", "text", kernel = "none", command = "botfigrule" },
  { "dblrule", "text", kernel = "none", command = "dblfigrule" },
  { "footdepth", "text", kernel = "keep", notes = true }, { "footfill", "text", kernel = NO_GLUE, notes = true },
  { "footplace", "text", kernel = "above", notes = true },
} do
  row.part = not row.command
  ROWS[#ROWS + 1] = row
end
local ROW = {}
for _, row in ipairs(ROWS) do ROW[row[1]] = row end

local own = {}         -- the values at the document's begin; after settle() those that are written
local votes = {}       -- by part (the clears before it): name -> value -> number of columns
local part = 0
local first_height     -- the height of the document's first column, if it was made before a clear; `none` if not

local fills = {}       -- the glue above a rule that stretches or shrinks, without its width; by the rule's parameter
local unsaid = {}      -- what no value of a parameter says -> the parameter

function M.unsaid(name, what) unsaid[what] = name end

-- Such glue above the footnote rule moves the footnotes down as `footfill` does.
local function with_fill(name, value)
  if name ~= "footfill" or not fills.footrule then return value end
  if value ~= NO_GLUE then M.unsaid(name, "glue in the footnote rule with glue above it (one of the two is written)") end
  return value == NO_GLUE and fills.footrule or value
end

function M.document(name, value) own[name] = with_fill(name, value) end

-- The columns to come stand after so many clears.
function M.enter(clears) part = clears end
function M.current() return part end

-- ---- Changes anywhere

local first = {}       -- what was seen of these parameters when the document began: a value, or a command's meaning
local seen = {}        -- what was seen last

-- What a command does now. One that is no macro is told by its code.
local function meaning(command)
  local code = token.create(command)
  return token.get_macro(command) or string.format("\\%s %s", code.cmdname, code.mode)
end

local function width(glue) return (tex.get(glue, false)) end

-- What there is to see of a parameter that may change anywhere.
local function seen_now(row)
  if row[1] == "topskip" then return tostring(width("topskip")) end
  return row.command and meaning(row.command)
end

-- Dimensions that a galley can't set anywhere.
local FIXED = {
  baselineskip = function() return width("baselineskip") end,
  textheight = function() return tex.dimen.textheight end,
  ["@maxdepth"] = function() return tex.dimen["@maxdepth"] end,
}
local fixed = {}       -- their values when they were looked at last

-- The log names what the output routine changes of these.
local function watch_fixed(by_routine)
  for name, value in pairs(FIXED) do
    local now = value()
    if by_routine and fixed[name] and fixed[name] ~= now then
      log.lost(string.format("%s, which the output routine changes from %d to %d", name, fixed[name], now))
    end
    fixed[name] = now
  end
end

-- Looks at what may change on any page. What the output routine changed (`by_routine`) holds from the first box on that it
-- returned; a change by the document holds for all that is contributed with it.
function M.watch(by_routine)
  watch_fixed(by_routine)
  local add = by_routine and nodes.add_at_page or nodes.add_at_text
  for _, row in ipairs(ROWS) do
    local name, now = row[1], seen_now(row)
    if seen[name] and now ~= seen[name] then add { kind = "set", parameter = name, seen = now } end
    first[name], seen[name] = first[name] or now, now
  end
end

local kernel_routine = tex.output      -- LaTeX's output routine, as it was when this package was read
local is_other = false

-- Notes where the document begins to make pages by another output routine, as within multicols.
function M.watch_routine()
  local other = tex.output ~= kernel_routine
  if other and not is_other then log.lost("another output routine (\\output), whose rules are not the program's") end
  is_other = other
end

-- ---- Votes

local function add_vote(name, value)
  votes[part] = votes[part] or {}
  votes[part][name] = votes[part][name] or {}
  votes[part][name][value] = (votes[part][name][value] or 0) + 1
end

-- The votes for what a command puts are told apart by its meaning.
local function key(name, seen) return name .. " " .. seen end

-- A column has this value. For topskip see watch(), for parskip float_parskip(): these alone tell which was used.
function M.column(name, value)
  if name == "topskip" or name == "parskip" or name == "pool" then return end
  if name == "textheight" then first_height = first_height or (part == 0 and value or "none") end
  local command = ROW[name] and ROW[name].command
  add_vote(command and key(name, meaning(command)) or name, with_fill(name, value))
end

-- A column's first box stands below the glue `g`.
function M.top_skip(g)
  if g.stretch ~= 0 or g.shrink ~= 0 then log.lost("top skip with stretch or shrink (its width is kept)") end
end

-- ---- What the commands of the column's maker put, set into a box

local function nodes_of(box) return node.traverse(tex.box[box] and tex.box[box].head) end

-- The glue of \raggedbottom, 0 plus .0001fil.
local function is_ragged(n)
  return n.id == node.id("glue") and n.width == 0 and n.stretch_order == 2 and n.stretch == 7
end

-- Prints whether \@textbottom puts the glue of \raggedbottom: `ragged` or `flush`.
function M.bottom(box)
  for n in nodes_of(box) do
    if is_ragged(n) then return tex.sprint(-2, "ragged") end
  end
  tex.sprint(-2, "flush")
end

-- Adds glue to a sum: of the stretch the greatest order alone counts.
local function add_glue(sum, n, name)
  sum.width, sum.shrink = sum.width + n.width, sum.shrink + n.shrink
  if n.shrink_order ~= 0 then M.unsaid(name, "infinite shrink in " .. name .. " (written as finite)") end
  if n.stretch == 0 or n.stretch_order < sum.order then return end
  if n.stretch_order > sum.order then sum.stretch, sum.order = 0, n.stretch_order end
  sum.stretch = sum.stretch + n.stretch
end

local function new_sum() return { width = 0, stretch = 0, order = 0, shrink = 0 } end

local function is_flexible(sum) return sum.stretch ~= 0 or sum.shrink ~= 0 end

local function sum_text(sum, width)
  return string.format("%d plus %d%s minus %d", width, sum.stretch, sum.stretch ~= 0 and ORDERS[sum.order] or "", sum.shrink)
end

-- Prints the sum of the glue and kerns that were put for the parameter. The glue of \raggedbottom is that of `bottom`.
function M.glue(name, box)
  local sum, is_told = new_sum(), name ~= "textbottom"
  for n in nodes_of(box) do
    if not is_told and is_ragged(n) then is_told = true
    elseif n.id == node.id("glue") then add_glue(sum, n, name)
    elseif n.id == node.id("kern") then sum.width = sum.width + n.kern
    elseif n.height and n.height + n.depth ~= 0 then
      M.unsaid(name, "a box or rule in " .. name .. " (its height is kept)")
      sum.width = sum.width + n.height + n.depth
    end
  end
  tex.sprint(-2, sum_text(sum, sum.width))
end

-- Prints what was put as a rule: the sum of what stands before it, its height, and the sum of what stands after it; or
-- `none`, if there is nothing. Rules without height, such as that of \vspace*, are none. Glue above it that stretches or
-- shrinks is kept as a fill.
function M.rule(name, box)
  local above, height, below = new_sum(), nil, new_sum()
  for n in nodes_of(box) do
    local sum = height and below or above
    if n.id == node.id("glue") then add_glue(sum, n, name)
    elseif n.id == node.id("kern") then sum.width = sum.width + n.kern
    elseif n.height and n.height + n.depth ~= 0 then
      if height then
        sum.width = sum.width + n.height + n.depth
        M.unsaid(name, "a second rule or box in " .. name .. " (its height is kept)")
      else
        height = n.height + n.depth
      end
    end
  end
  fills[name] = is_flexible(above) and sum_text(above, 0) or nil
  if is_flexible(below) or (fills[name] and name ~= "footrule") then
    M.unsaid(name, "glue in " .. name .. " that stretches or shrinks (its width is kept)")
  end
  local is_none = not height and above.width == 0
  tex.sprint(-2, is_none and "none" or string.format("%d %d %d", above.width, height or 0, below.width))
end

-- ---- What the page builder met in the nodes themselves

-- The split depth and the penalty of footnotes are those of the first.
local first_foot
function M.footnote(record)
  if not first_foot then
    first_foot = record
    own.footsplitdepth, own.footfloating = tostring(record.split_depth), tostring(record.cost)
  elseif first_foot.split_depth ~= record.split_depth or first_foot.cost ~= record.cost then
    log.lost("a footnote with its own split depth or penalty", record.place)
  end
end

-- ---- Which value is written

-- The value of most columns; of several with as many, `first`, or else the least text.
local function winner(counts, first)
  local best, most = first, counts[first] or 0
  for value, count in pairs(counts) do
    if count > most or (count == most and best ~= first and value < best) then best, most = value, count end
  end
  return best
end

local function tell_others(name, counts, value, where)
  for other, count in pairs(counts) do
    if other ~= value then log.uneven(string.format("%s is %s, not %s%s", name, other, value, where), count) end
  end
end

-- Forgets how footnotes stand, in a document without any.
local function forget_notes()
  for _, row in ipairs(ROWS) do
    if row.notes then
      own[row[1]], row.command = row.kernel, nil
      for _, names in pairs(votes) do names[row[1]] = nil end
      for what, name in pairs(unsaid) do
        if name == row[1] then unsaid[what] = nil end
      end
    end
  end
end

-- What a `set` line can't say holds all along.
local function lost(what) log.lost(what, "the whole document") end

-- The votes of all parts.
local function votes_of(name)
  local all = {}
  for _, names in pairs(votes) do
    for value, count in pairs(names[name] or {}) do all[value] = (all[value] or 0) + count end
  end
  return all
end

-- What a command with this meaning puts into the columns after so many clears, or else into most columns of the document;
-- nil where it put nothing into any.
local function put_by(row, seen, clears)
  local name, voted = row[1], key(row[1], seen)
  local counts = votes[clears] and votes[clears][voted]
  if counts then
    local value = winner(counts, own[name])
    tell_others(name, counts, value, " within a part")
    return value
  end
  local all = votes_of(voted)
  return next(all) and winner(all, own[name])
end

-- Chooses each parameter's value over the whole document, or at its begin where it may change anywhere. `has_notes`:
-- whether it has footnotes.
function M.settle(has_notes)
  if not has_notes then forget_notes() end
  for what in pairs(unsaid) do lost(what) end
  for _, row in ipairs(ROWS) do
    local name, all = row[1], votes_of(row[1])
    if row.command and first[name] then
      own[name] = put_by(row, first[name], 0) or own[name]
    elseif next(all) then
      own[name] = winner(all, own[name])
      if not row.part then tell_others(name, all, own[name], "") end
    end
  end
  own.topskip = first.topskip or own.topskip
end

-- By how much the first page is higher than the others up to the first clear, or below 0 lower: some classes set \textheight
-- when LaTeX has taken the height of the first page already. 0 if there are no others, or most are as high as the first. Its
-- vote counts no more.
function M.first_page_higher()
  local heights = votes[0] and votes[0].textheight
  local most = heights and winner(heights, own.textheight)
  if not most or not heights[first_height] or most == first_height then return 0 end
  heights[first_height] = heights[first_height] > 1 and heights[first_height] - 1 or nil
  return tonumber(first_height) - tonumber(most)
end

-- Whether version 3 is needed: a parameter of it has another value than in an earlier version, or a line of it is written.
local is_new = false

-- A line of version 3 is written.
function M.use_new() is_new = true end

-- The values of the part after so many clears, nil where LaTeX made no column in it.
function M.of_part(clears)
  if not votes[clears] then return nil end
  local values = {}
  for _, row in ipairs(ROWS) do
    local name = row[1]
    if row.part then
      local counts = votes[clears][name]
      values[name] = counts and winner(counts, own[name]) or own[name]
      if counts then tell_others(name, counts, values[name], " within a part") end
    end
  end
  return values
end

-- ---- Lines of a galley

local function clipped(name, value, least, greatest)
  local number = math.floor(tonumber(value) or 0)
  local kept = math.max(least, math.min(greatest, number))
  if kept ~= number then lost(string.format("set %s %d (%d is written)", name, number, kept)) end
  return kept
end

local FORMS = {
  number = function(row, value) return clipped(row[1], value, row[3], row[4]) end,
  text = function(_, value) return value end,
  fraction = function(row, value)
    local number = tonumber((value:gsub("%s", "")))
    if number and number >= 0 and number <= 1 then return (value:gsub("%s", "")) end
    lost(string.format("set %s %s", row[1], value))
    return number and (number > 1 and "1" or "0")
  end,
  factor = function(_, value)
    if value ~= "1000" then lost("footnotes with the factor " .. value) end
  end,
}

-- The version of the galley: 3 if it is needed, else that of the words that it has.
function M.version(has_classes)
  return is_new and 3 or has_classes and 2 or 1
end

local function line_of(row, value)
  local text = FORMS[row[2]](row, value)
  return text and string.format("set %s %s", row[1], text)
end

-- The `set` lines that the galley begins with.
function M.lines()
  local out = {}
  for _, row in ipairs(ROWS) do
    local value = own[row[1]]
    if value and (is_new or not row.kernel) then out[#out + 1] = line_of(row, value) end
  end
  return out
end

-- ---- Lines among the items, in the order in which they are written

local said = {}        -- what holds of the parameters that were set among the items
local holds = {}       -- of the commands the meaning that holds, where it is not the first

-- The line that sets a parameter, nil where it has the value already or the value is not known.
local function set_line(row, value)
  if not value or value == (said[row[1]] or own[row[1]]) then return nil end
  said[row[1]] = value
  return line_of(row, value)
end

-- The line of a change that the page builder met after so many clears, if it gives a parameter another value.
function M.change(record, clears)
  local row = ROW[record.parameter]
  if row[1] == "topskip" then return set_line(row, record.seen) end
  if not row.command then return nil end
  holds[row[1]] = record.seen
  return set_line(row, put_by(row, record.seen, clears))
end

-- The lines at the clear before a part, which has these values; `before` are those of the part before it. What holds of the
-- commands may put something else in another part.
function M.changes(clears, before, values)
  local out = {}
  for _, row in ipairs(ROWS) do
    local name = row[1]
    if row.part and before and before[name] ~= values[name] then
      out[#out + 1] = line_of(row, values[name])
    elseif row.command and first[name] then
      out[#out + 1] = set_line(row, put_by(row, holds[name] or first[name], clears))
    end
  end
  return out
end

-- The galley begins with these values, those of its first columns; nil without any.
function M.begin_galley(values)
  for _, row in ipairs(ROWS) do
    local name = row[1]
    own[name] = values and values[name] or own[name]
    if row.kernel and own[name] ~= row.kernel then is_new = true end
  end
end

local is_parskip_known = false

-- The line before a float that uses this parskip: one with place h that was called between paragraphs. They alone use it, so
-- the galley begins with that of the first.
function M.float_parskip(glue)
  if is_parskip_known then return set_line(ROW.parskip, glue) end
  own.parskip, is_parskip_known = glue, true
end

return M
