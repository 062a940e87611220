-- The classes of insertions: footnotes, the room of \enlargethispage, the series of manyfoot, and others.
local log = require("galleyexport-log")
local parameters = require("galleyexport-parameters")

local M = {}

local ORDERS = { [0] = "", "sfil", "sfil", "sfill", "sfilll" }
local FOOT, ENLARGED = "foot", "enlarged"
local classes = {}     -- TeX's number of the insertion -> its class

function M.add(kind, number, factor, limit, skip)
  classes[number] = { kind = kind, factor = factor, limit = limit, skip = skip, number = number % 250 }
end

local function is_of(record, kind)
  local class = classes[record.class]
  return class ~= nil and class.kind == kind
end

function M.is_footnote(record) return is_of(record, FOOT) end
function M.is_enlargement(record) return is_of(record, ENLARGED) end

local FIRST_SERIES = 100
local below = {}       -- TeX's number of the insertion -> the rule of a series below the footnotes, and its place
local series = 0

-- A series of notes stands below the footnotes and the series before it, under this rule.
function M.below(number, rule)
  series = series + 1
  below[number] = { rule = rule, order = series }
end

-- The class of an insertion, nil for footnotes, which need no number. Notes how it is said.
function M.class_of(record)
  if not classes[record.class] then
    local g = tex.skip[record.class]
    M.add("other", record.class, tex.count[record.class], tex.dimen[record.class],
      string.format("%d plus %d%s minus %d", g.width, g.stretch, ORDERS[g.stretch_order], g.shrink))
  end
  local class = classes[record.class]
  if class.kind == FOOT then return nil end
  if below[record.class] then
    local own = below[record.class]
    class.below, class.number = own.rule, FIRST_SERIES + own.order
    parameters.use_new()
  else
    log.lost("another class of insertions (its boxes stand before the footnotes, without a rule)", record.place)
  end
  return class
end

-- The `class` lines of a galley, in rising number.
function M.class_lines(used)
  local out, sorted = {}, {}
  for class in pairs(used) do sorted[#sorted + 1] = class end
  table.sort(sorted, function(a, b) return a.number < b.number end)
  for _, class in ipairs(sorted) do
    out[#out + 1] = string.format("class %d %d %d %s%s", class.number, class.factor, class.limit,
      class.below and "below " .. class.below .. " " or "", class.skip)
  end
  return out
end

return M
