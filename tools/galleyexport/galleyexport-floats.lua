-- Floats, marginal notes, and boxes over both columns. LaTeX's macros tell their data when the box is made; their place
-- among the contributions is where the page builder meets their penalties. Both come in the same order.
local log = require("galleyexport-log")
local nodes = require("galleyexport-nodes")

local M = {}

local FLOAT = luatexbase.new_attribute("gx@float")     -- the number of the float, note or title whose box this is
local SIDE = luatexbase.new_attribute("gx@side")       -- of a marginal note's two boxes: LEFT or RIGHT
local LEFT, RIGHT = 1, 2

local BANG = 16                                        -- the bit of a float's places that is set where it has no !
local OTHER_CLASS = 26                                 -- of a float whose type is none of LaTeX's powers of two
local ORDERS = { [0] = "", "sfil", "sfil", "sfill", "sfilll" }

M.queue = {}           -- floats and marginal notes, in the order in which the page builder meets them
local by_number = {}   -- these and the titles
local notes = {}       -- the marginal notes among them
local beside = 0       -- how many of these the output routine has put beside their lines
local named = {}       -- how many there are of each name

local function new(float, name)
  named[name] = (named[name] or 0) + 1
  float.name = (name .. "." .. named[name]):sub(1, 63)
  by_number[#by_number + 1] = float
  float.number = #by_number
  return float
end

-- The float, title or marginal note whose box this node is; for a note also "left" or "right". Nothing for nil: after
-- an error a box that a macro names may be void, and LuaTeX ends at once if `node` is asked about nil.
function M.of(n)
  if not n then return nil end
  local float = by_number[node.get_attribute(n, FLOAT) or 0]
  local side = node.get_attribute(n, SIDE)
  return float, side and (side == LEFT and "left" or "right")
end

-- The height and depth of a box. A void one counts as empty: the page builder meets its penalties all the same.
local function size_of(b, what)
  if b then return b.height, b.depth end
  log.lost(what .. " whose box is void (its sizes are 0)")
  return 0, 0
end

-- Puts the number of a float, title or note on its box, and the side on that of a note.
local function number(b, float, side)
  if not b then return end
  node.set_attribute(b, FLOAT, float.number)
  if side then node.set_attribute(b, SIDE, side) end
end

-- A float is about to be handed to the page builder. `count` is its type times 32, plus a bit for each place.
-- `no_break`: a heading stands directly above.
function M.float(box, count, double, captype, no_break)
  local b = tex.box[box]
  if M.of(b) then return end
  local g = tex.parskip
  local name = nodes.clean(captype)
  local height, depth = size_of(b, "a float")
  local float = new({
    kind = "float", type = count // 32, places = count % 32, double = double, height = height, depth = depth,
    parskip = string.format("%d plus %d%s minus %d", g.width, g.stretch, ORDERS[g.stretch_order], g.shrink),
    no_break = no_break, place = log.here() }, name == "" and "float" or name)
  number(b, float)
  M.queue[#M.queue + 1] = float
end

-- A marginal note is, with its two boxes.
function M.margin(left, right, no_break)
  local l, r = tex.box[left], tex.box[right]
  if M.of(r) then return end
  local what = "a marginal note"
  local note = new({ kind = "margin", left = { size_of(l, what) }, right = { size_of(r, what) },
    no_break = no_break, place = log.here() }, "margin")
  number(l, note, LEFT)
  number(r, note, RIGHT)
  M.queue[#M.queue + 1] = note
  notes[#notes + 1] = note
end

-- The output routine puts the next note beside its line, on the page of this number.
function M.beside(page)
  beside = beside + 1
  if notes[beside] then notes[beside].page = page end
end

local function add_title(box, height)
  local b = tex.box[box]
  if M.of(b) then return end
  if not b then return log.lost("a box over both columns that is void (it is left out)") end
  if height ~= b.height then log.lost("a box over both columns that takes other room than its height") end
  if height < 0 then log.lost("a box over both columns of negative height (0 is written)") end
  local title = new({ kind = "title", height = math.max(height, 0) }, "title")
  number(b, title)
  nodes.add { kind = "title", float = title }
end

-- \twocolumn[..] has set a box over both columns, which takes `room` from them.
function M.title(box, room)
  nodes.take()
  add_title(box, room)
end

-- Boxes that the document put over both columns in another way, not the output routine.
function M.titles()
  local list = token.get_macro("@dbltoplist")
  for name in (list or ""):gmatch("\\@elt%s*\\([%a@]+)") do
    local register = token.create(name)
    local box = register.mode or register.index
    local b = box and tex.box[box]
    if b and not M.of(b) then add_title(box, b.height) end
  end
end

-- The output routine puts a float into an area.
function M.stands(box, area)
  local b = tex.box[box]
  local float = b and M.of(b)
  if float then float.area = area end
end

-- A float waits, and LaTeX warns if it may go into the text alone: which one it is stands before that in the log.
function M.waits(box, places)
  local float = M.of(tex.box[box])
  if float and places % BANG == 1 then texio.write_nl("log", "galleyexport: waits " .. float.name) end
end

-- ---- \suppressfloats, and classes that set a count to 0, at a chapter say

local AREA_OF_COUNT = { ["@colnum"] = "", ["@topnum"] = "t", ["@botnum"] = "b" }
local counts = {}

-- Looks at the counts of floats that may still come. With `by_document` a count that became 0 is a suppression.
function M.suppressed(by_document)
  for count, area in pairs(AREA_OF_COUNT) do
    local left = tex.count[count]
    if by_document and counts[count] and counts[count] ~= left and left == 0 then
      nodes.add { kind = "suppress", area = area }
    end
    counts[count] = left
  end
end

-- ---- Lines of a galley

local PLACE_BITS = { { 1, "h" }, { 2, "t" }, { 4, "b" }, { 8, "p" } }

local function places(float)
  local text = float.places < BANG and "!" or ""
  for _, row in ipairs(PLACE_BITS) do
    if float.places // row[1] % 2 == 1 then text = text .. row[2] end
  end
  if text == "" or text == "!" then
    log.lost("a float without a place (written with p)", float.place)
    text = text .. "p"
  end
  return text
end

-- The class of a float: LaTeX's types 1, 2, 4, .. are the classes 1, 2, 3, ..
function M.class(float)
  if not float.type then return OTHER_CLASS end
  local class, type = 1, float.type
  while type > 1 and type % 2 == 0 do class, type = class + 1, type // 2 end
  if type == 1 and class <= OTHER_CLASS then return class end
  log.lost("a float of type " .. float.type, float.place)
  return OTHER_CLASS
end

local function not_negative(size, what, place)
  if size >= 0 then return size end
  log.lost(what .. " of negative height or depth", place)
  return 0
end

local function margin_line(note, mode)
  local sizes = {}
  for _, box in ipairs { note.left, note.right } do
    for _, size in ipairs(box) do sizes[#sizes + 1] = not_negative(size, "a marginal note", note.place) end
  end
  return string.format("margin %s %s %s", note.name, table.concat(sizes, " "), mode)
end

-- Whether a float or marginal note has what only galleys of version 3 say: `nobreak`, or the depth of a double float.
function M.is_new(float) return float.no_break or float.double end

-- The line of a float or marginal note that was called in a paragraph (`mode` par) or between two (vert).
function M.line(float, mode)
  if float.no_break then mode = mode .. " nobreak" end
  if float.kind == "margin" then return margin_line(float, mode) end
  if float.depth > 1 then log.lost("a float with a depth", float.place) end
  return string.format("float %s %d %s %s %d %s", float.name, M.class(float), float.double and "double" or "single",
    places(float), not_negative(float.height, "a float", float.place), mode)
end

return M
