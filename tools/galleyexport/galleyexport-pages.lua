-- The columns and pages that LaTeX made, in the form of a page report. Names are exact, since the shipped boxes carry
-- the attributes that their nodes got when they were contributed. Natural heights and glue settings are computed from
-- TeX's nodes and compared with TeX's own glue_set, which is rounded; tops are whole sp by the report's rule.
local log = require("galleyexport-log")
local nodes = require("galleyexport-nodes")
local floats = require("galleyexport-floats")
local parameters = require("galleyexport-parameters")
local numbers = require("galleyexport-numbers")

local NODE = nodes.NODE
local M = {}

local DONE = luatexbase.new_attribute("gx@done")
local ORDER_NAMES = { [0] = "normal", "fi", "fil", "fill", "filll" }
local TOPSKIP
for number, name in pairs(node.subtypes("glue")) do
  if name == "topskip" then TOPSKIP = number end
end

M.list = {}            -- pages: kind, columns, and for two columns `at` and the floats over both
local waiting = {}     -- columns that are on no page yet

local function is_list(n) return n.id == NODE.hlist or n.id == NODE.vlist end
local function is_box(n) return is_list(n) or n.id == NODE.rule end

-- ---- Setting of a vertical list

-- The natural height of a list whose depth may be `limit`, the sums of its stretch by order, and of its shrink.
local function natural_size(head, limit)
  local height, depth, stretch, shrink = 0, 0, { [0] = 0, 0, 0, 0, 0 }, 0
  for n in node.traverse(head) do
    if is_box(n) then
      height, depth = height + depth + n.height, n.depth
    elseif n.id == NODE.glue then
      height, depth = height + depth + n.width, 0
      stretch[n.stretch_order] = stretch[n.stretch_order] + n.stretch
      shrink = shrink + n.shrink
    elseif n.id == NODE.kern then
      height, depth = height + depth + n.kern, 0
    end
  end
  if depth > limit then height = height + depth - limit end
  return height, stretch, shrink
end

-- How the glue of a vertical list is set for its height.
local function setting(v)
  local natural, stretch, shrink = natural_size(v.head, v.depth)
  local set = { natural = natural, sign = "none", order = 0, num = 0, den = 1, over = 0 }
  local wanted = v.height - natural
  if wanted > 0 then
    local order = stretch[4] ~= 0 and 4 or stretch[3] ~= 0 and 3 or stretch[2] ~= 0 and 2 or stretch[1] ~= 0 and 1 or 0
    if stretch[order] ~= 0 then set.sign, set.order, set.num, set.den = "stretch", order, wanted, stretch[order] end
  elseif wanted < 0 and shrink >= -wanted then
    set.sign, set.num, set.den = "shrink", -wanted, shrink
  elseif wanted < 0 then
    set.over = -wanted - shrink
    if shrink ~= 0 then set.sign, set.num, set.den = "shrink", 1, 1 end
  end
  local ratio = set.sign == "none" and 0 or set.num / set.den
  if math.abs(ratio - v.glue_set) > 1e-6 + 1e-5 * math.abs(ratio) then
    set.odd = string.format("TeX's glue_set is %.8f, computed was %.8f", v.glue_set, ratio)
  end
  return set
end

local function setting_text(set)
  local text = "none"
  if set.sign == "stretch" then
    text = string.format("stretch %s %d/%d", ORDER_NAMES[set.order], set.num, set.den)
  elseif set.sign == "shrink" then
    text = string.format("shrink %d/%d", set.num, set.den)
  end
  return set.over > 0 and text .. " overfull " .. set.over or text
end

-- ---- Items of a column

-- The marginal note in a box that the output routine made: its float, side, box, and the glue above it.
local function margin_in(n)
  if not is_list(n) then return nil end
  local float, side = floats.of(n)
  if side then return float, side, n end
  local before
  for m in node.traverse(n.head) do
    local note, where, box, shift = margin_in(m)
    if note then
      if not shift and n.id == NODE.vlist and before and before.id == NODE.glue then shift = before.width end
      return note, where, box, shift
    end
    before = m
  end
end

local add_items

-- Adds what a box of a column is. `kind` is that of the column.
local function add_box(out, n, top, kind)
  local float, side = floats.of(n)
  local record = nodes.record_of(n)
  if float and not side then
    out[#out + 1] = { kind = "float", float = float, top = top, height = n.height, depth = n.depth, column = kind }
  elseif record then
    out[#out + 1] = { kind = "box", record = record, top = top, height = n.height, depth = n.depth }
  else
    local note, where, box, shift = margin_in(n)
    if note then
      out[#out + 1] = { kind = "margin", float = note, side = where, shift = (shift or 0) + box.height, top = top,
        height = box.height, depth = box.depth }
    elseif n.id == NODE.vlist and n.head then
      add_items(out, n, setting(n), top, kind)
    elseif n.height ~= 0 or (n.width ~= 0 and n.head) then
      out[#out + 1] = { kind = "unknown", name = nodes.box_name(n, 0), top = top, height = n.height, depth = n.depth }
    end
  end
end

-- Adds the items of a vertical list that begins at `at`, in order, with their tops.
function add_items(out, v, set, at, kind)
  local y, flexible = at, 0
  local function top()
    local moved = set.sign ~= "none" and (flexible * set.num) // set.den or 0
    return set.sign == "shrink" and y - moved or y + moved
  end
  for n in node.traverse(v.head) do
    if is_box(n) then
      local record = nodes.record_of(n)
      if is_list(n) then
        add_box(out, n, top(), kind)
      else
        out[#out + 1] = { kind = record and "rule" or "footrule", record = record, top = top(),
          height = n.height, depth = n.depth }
      end
      y = y + n.height + n.depth
    elseif n.id == NODE.glue then
      y = y + n.width
      if set.sign == "stretch" and n.stretch_order == set.order then flexible = flexible + n.stretch
      elseif set.sign == "shrink" then flexible = flexible + n.shrink end
    elseif n.id == NODE.kern then
      y = y + n.kern
    elseif n.id == NODE.mark or n.id == NODE.whatsit then
      local record = nodes.record_of(n)
      if record then out[#out + 1] = { kind = record.kind, record = record, top = top() } end
    end
  end
end

-- A rule of the output routine that stands directly below top floats or above bottom floats is one beside floats.
local function tell_float_rules(items)
  local function is_in(item, area) return item and item.kind == "float" and item.float.area == area end
  for k, item in ipairs(items) do
    if item.kind == "footrule" and (is_in(items[k - 1], "top") or is_in(items[k + 1], "bottom")) then
      item.kind = "floatrule"
    end
  end
end

-- ---- Columns

-- The list with the document's own nodes: a class may have put frames or rules round it.
local function inner_list(v, depth)
  if v.id == NODE.vlist then
    for n in node.traverse(v.head) do
      if nodes.record_of(n) or floats.of(n) then return v end
    end
  end
  if depth > 6 then return nil end
  for n in node.traverse(v.head) do
    local inner = is_list(n) and inner_list(n, depth + 1)
    if inner then return inner end
  end
end

-- The column within a box of \enlargethispage: it has another height than the room, and glue below it that may shrink.
local function enlarged_list(v)
  local n = v.head
  if n and n.id == NODE.vlist and not nodes.record_of(n) and not floats.of(n) then
    local below = n.next
    if below and below.id == NODE.glue and below.shrink_order > 0 and not below.next then return n end
  end
end

-- Tells the top skip of a column.
local function tell_top_skip(v)
  local glue
  for n in node.traverse(v.head) do
    if n.id == NODE.glue and n.subtype == TOPSKIP then
      glue = n
    elseif glue and is_box(n) then
      return parameters.top_skip(glue)
    end
  end
end

-- LaTeX has made a column: of floats alone, or of text.
function M.column(box, of_floats, two_columns, number)
  local v = tex.box[box]
  if not v or node.get_attribute(v, DONE) then return end
  node.set_attribute(v, DONE, 1)
  local column = { kind = of_floats and "floats" or "text", number = two_columns and number or 1, height = v.height }
  local inner = enlarged_list(v)
  if inner then
    column.set, column.height = setting(inner), inner.height
    column.enlarged = inner.height - v.height
    v = inner
  else
    if v.id == NODE.hlist then v = inner_list(v, 0) or v end
    column.height = v.height
    column.set = setting(v)
  end
  column.items = {}
  add_items(column.items, v, column.set, 0, column.kind)
  tell_float_rules(column.items)
  tell_top_skip(v)
  waiting[#waiting + 1] = column
end

-- ---- Pages

-- The floats over both columns at the head of a pair with the rule below them, and how much room their depths and the rule take.
local function wide_floats(v)
  local out, y, room = {}, 0, 0
  for n in node.traverse(v.head) do
    if is_list(n) then
      local float, side = floats.of(n)
      if float and not side then
        out[#out + 1] = { kind = "wide", float = float, top = y, height = n.height, depth = n.depth }
        room = room + n.depth
      end
      y = y + n.height + n.depth
    elseif n.id == NODE.rule then
      out[#out + 1] = { kind = "floatrule", top = y, height = n.height, depth = n.depth }
      y, room = y + n.height + n.depth, room + n.height + n.depth
    elseif n.id == NODE.glue then y = y + n.width
    elseif n.id == NODE.kern then y, room = y + n.kern, room + n.kern end
  end
  return out, room
end

-- LaTeX ships a page: of the columns that it made since the last one, or of floats over both columns alone.
function M.page(box, two_columns, text_height, number)
  local v = tex.box[box]
  if not v or node.get_attribute(v, DONE) == 2 then return end
  node.set_attribute(v, DONE, 2)
  numbers.shipped()
  local page = { number = number, columns = waiting, clears = parameters.current(), kind = "one" }
  waiting = {}
  if #page.columns == 2 then
    page.kind = "two"
    local room
    page.wide, room = wide_floats(v)
    local first = page.columns[1]
    page.at = text_height - first.height + (first.enlarged or 0) + (#page.wide > 0 and room or 0)
  elseif #page.columns == 0 then
    page.kind = "wide"
    local column = { kind = "floats", number = 1, height = v.height, set = setting(v), items = {} }
    add_items(column.items, v, column.set, 0, column.kind)
    page.columns = { column }
  elseif two_columns then
    log.lost("a page of one column where there are two")
  end
  M.list[#M.list + 1] = page
  if M.traced then texio.write_nl("log", "galleyexport: page " .. #M.list) end
end

-- ---- The report

local function float_text(item, where)
  if item.float.kind == "title" then return string.format("head %s %d %d", item.float.name, item.top, item.height) end
  return string.format("float %s %d %s %d %d", item.float.name, floats.class(item.float), where, item.top, item.height)
end

local LINE_OF = {
  float = function(item)
    return float_text(item, item.column == "floats" and "page" or item.float.area or "here")
  end,
  wide = function(item) return float_text(item, "wide") end,
  margin = function(item)
    return string.format("margin %s %s %d %d %d %d", item.float.name, item.side, item.shift, item.top, item.height,
      item.depth)
  end,
  box = function(item) return string.format("box %s %d %d %d", item.record.name, item.top, item.height, item.depth) end,
  rule = function(item) return string.format("rule %s %d %d %d", item.record.name, item.top, item.height, item.depth) end,
  footrule = function(item) return string.format("footrule %d %d %d", item.top, item.height, item.depth) end,
  floatrule = function(item) return string.format("floatrule %d %d %d", item.top, item.height, item.depth) end,
  mark = function(item)
    return string.format("%s %s %d", item.record.class == 0 and "mark" or "note", item.record.name, item.top)
  end,
  note = function(item) return string.format("note %s %d", item.record.name, item.top) end,
  unknown = function(item)
    return string.format("# a box of the output routine: %s %d %d %d", item.name, item.top, item.height, item.depth)
  end,
}

-- Writes the pages to the file. Boxes that the galley does not name (those of a clear) have no line here either.
function M.write(path)
  local out = assert(io.open(path, "w"))
  local counts = { box = 0, rule = 0, float = 0, wide = 0 }
  local function put(item)
    if item.record and not item.record.name then return end
    if counts[item.kind] then counts[item.kind] = counts[item.kind] + 1 end
    out:write(LINE_OF[item.kind](item), "\n")
  end
  out:write("report 1\n")
  for _, page in ipairs(M.list) do
    out:write(string.format("page %d %s\n", page.number, page.at and "two at " .. page.at or page.kind))
    for _, item in ipairs(page.wide or {}) do put(item) end
    for _, column in ipairs(page.columns) do
      out:write(string.format("column %d %s height %d natural %d set %s\n", column.number, column.kind, column.height,
        column.set.natural, setting_text(column.set)))
      if column.set.odd then out:write("# ", column.set.odd, "\n") end
      if column.enlarged then out:write("# enlarged by ", column.enlarged, "\n") end
      for _, item in ipairs(column.items) do put(item) end
    end
  end
  out:write(string.format("end pages %d boxes %d floats %d warnings 0\n", #M.list, counts.box + counts.rule,
    counts.float + counts.wide))
  out:close()
end

return M
