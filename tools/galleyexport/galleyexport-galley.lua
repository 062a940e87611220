-- Records as the lines of a galley. LaTeX's macros say a float, a clear and a new page by sequences of nodes with
-- penalties that name them; a galley has a word for each.
local log = require("galleyexport-log")
local nodes = require("galleyexport-nodes")
local floats = require("galleyexport-floats")
local parameters = require("galleyexport-parameters")
local insertions = require("galleyexport-insertions")
local sides = require("galleyexport-sides")

local M = {}

-- The penalties that LaTeX's macros speak with.
local NEW_PAGE, CLEAR, FLOAT_BEGINS, FLOAT_PAR, FLOAT_VERT = -10000, -10001, -10004, -10002, -10003
local INFINITE_PENALTY = 10000
local MOST_ITEMS = 100000
local ORDERS = { [0] = "", "sfil", "sfil", "sfill", "sfilll" }
local BREAK_PENALTIES = { [0] = 0, 51, 151, 301, 10000 }   -- of \pagebreak[n], without the sign

local records = nodes.records
local counts = { boxes = 0, footnotes = 0, floats = 0, margins = 0 }
-- The lines of the items, by their numbers the records that they begin with, and the classes of insertions that came.
local galley = { lines = {}, begins = {}, classes = {} }
local two_columns = false  -- whether the galley begins in two columns
local start_notes = 0      -- whatsits and marks that the class left on the page, by \onecolumn or \twocolumn
local queued = 0           -- how many floats and marginal notes of the queue were written
local within_clear = {}    -- what LaTeX changed within the last clear: lines that set parameters, and the page's number

-- The document begins, in one column or in two.
function M.begin(two)
  two_columns = two
  local n = tex.lists.page_head
  while n do
    if n.id == nodes.NODE.whatsit or n.id == nodes.NODE.mark then start_notes = start_notes + 1 end
    n = n.next
  end
end

-- ---- Sequences of records

local function is_penalty(record, value)
  return record and record.kind == "penalty" and record.value == value
end

-- The glue of 0 plus 1fil that \newpage and \clearpage put before their penalty.
local function is_filling(record)
  return record and record.kind == "glue" and record.width == 0 and record.stretch == 65536
    and record.stretch_order == 2 and record.shrink == 0
end

-- The first place from k on whose record is of none of the kinds.
local function past(k, kinds)
  while records[k] and kinds[records[k].kind] do k = k + 1 end
  return k
end

local ROOM = { glue = true, kern = true, page = true, set = true }
local CLEARED = { glue = true, kern = true, mark = true, note = true, page = true, set = true }

-- A float or marginal note begins at k: -10004, perhaps glue, an empty box, -10002 or -10003. Gives its last place.
local function float_end(k)
  if not is_penalty(records[k], FLOAT_BEGINS) then return nil end
  local box = past(k + 1, ROOM)
  local last = records[box + 1]
  if records[box] and records[box].empty and (is_penalty(last, FLOAT_PAR) or is_penalty(last, FLOAT_VERT)) then
    return box + 1
  end
end

-- A clear begins at k: filling glue, -10000, a whatsit, perhaps glue, an empty box, -10001. Gives its last place.
local function clear_end(k)
  if not (is_filling(records[k]) and is_penalty(records[k + 1], NEW_PAGE)) then return nil end
  local box = past(k + 2, CLEARED)
  if records[box] and records[box].empty and is_penalty(records[box + 1], CLEAR) then return box + 1 end
end

-- ---- Lines of single records

local function glue_text(record)
  local text = tostring(record.width)
  if record.stretch_order == 1 then log.lost("stretch of order fi (fil is written)", record.place) end
  if record.shrink_order ~= 0 then log.lost("infinite shrink (written as finite)", record.place) end
  if record.stretch ~= 0 then text = text .. " plus " .. record.stretch .. ORDERS[record.stretch_order] end
  if record.shrink ~= 0 then text = text .. " minus " .. record.shrink end
  return text
end

-- A box or rule. What is negative is written as a kern.
local function put_box(put, record)
  local height, depth = record.height, record.depth
  if height < 0 or depth < 0 then log.lost("a box of negative height or depth (kerns are written)", record.place) end
  if height < 0 then put("kern " .. height) end
  put(string.format("%s %s %d %d", record.kind, record.name, math.max(height, 0), math.max(depth, 0)))
  if depth < 0 then put("kern " .. depth) end
end

local PUT = {
  box = put_box, rule = put_box,
  glue = function(put, record)
    if record.leaders then log.lost("leaders (their glue is kept)", record.place) end
    put("glue " .. glue_text(record))
  end,
  kern = function(put, record) put("kern " .. record.width) end,
  penalty = function(put, record)
    local value = math.max(-INFINITE_PENALTY, math.min(INFINITE_PENALTY, record.value))
    if record.value < -INFINITE_PENALTY then
      log.lost(string.format("penalty %d, which speaks to another output routine (-10000 is written)", record.value),
        record.place)
    end
    put("penalty " .. value)
  end,
  mark = function(put, record) put((record.class == 0 and "mark " or "note ") .. record.name) end,
  note = function(put, record) put("note " .. record.name) end,
  suppress = function(put, record) put(record.area == "" and "suppressfloats" or "suppressfloats " .. record.area) end,
  title = function(_, record)
    if not record.done then log.lost("\\twocolumn[..] away from its clear", record.place) end
  end,
}

-- The word of a penalty that \pagebreak or \nopagebreak made, nil for any other.
local function page_break(record)
  local set = record.page_break
  if not set or set == 0 or math.abs(set) > 5 then return nil end
  local number = math.abs(set) - 1
  if record.value ~= (set < 0 and -1 or 1) * BREAK_PENALTIES[number] then return nil end
  return (set < 0 and "pagebreak " or "nopagebreak ") .. number
end

-- ---- Lines of the items

-- Puts the lines that change parameters.
local function put_sets(put, lines)
  for _, line in ipairs(lines) do
    parameters.use_new()
    put(line)
  end
end

local function put_float(put, record)
  queued = queued + 1
  local float = floats.queue[queued]
  if not float then
    log.lost("a float whose data did not come", record.place)
    return
  end
  local vert = record.value == FLOAT_VERT
  if floats.is_new(float) then parameters.use_new() end
  if float.kind == "margin" then
    counts.margins = counts.margins + 1
  else
    counts.floats = counts.floats + 1
    if vert and float.places % 2 == 1 then put_sets(put, { parameters.float_parskip(float.parskip) }) end
  end
  put(floats.line(float, vert and "vert" or "par"))
end

-- \enlargethispage is an insertion of glue as high as the room that is taken back, below a box with a star.
local function put_enlargement(put, record)
  local by, star = 0, ""
  for _, leaf in ipairs(record.leaves) do
    if leaf.kind == "box" then star = " star" end
    if leaf.kind == "glue" then
      by = by - leaf.width
      if leaf.stretch ~= 0 or leaf.shrink ~= 0 then
        log.lost("\\enlargethispage by a size that stretches or shrinks (its width is kept)", record.place)
      end
    end
  end
  parameters.use_new()
  put("enlarge " .. by .. star)
end

local function put_insertion(put, record)
  if insertions.is_enlargement(record) then return put_enlargement(put, record) end
  local class = insertions.class_of(record)
  if class then
    galley.classes[class] = true
    put("foot " .. class.number)
  else
    parameters.footnote(record)
    counts.footnotes = counts.footnotes + 1
    put("foot")
  end
  for _, leaf in ipairs(record.leaves) do PUT[leaf.kind](put, leaf) end
  put("endfoot")
end

local BEFORE_TITLE = { title = true, note = true, mark = true, glue = true, kern = true, suppress = true, page = true,
  set = true }

-- The boxes over both columns at the head of what stands between the places first and last.
local function titles_at(first, last)
  local out, k = {}, first
  while k <= last and (BEFORE_TITLE[records[k].kind] or (records[k].kind == "penalty" and records[k].value > NEW_PAGE)) do
    if records[k].kind == "title" then out[#out + 1] = records[k] end
    k = k + 1
  end
  return out
end

-- The line of the box over both columns at the head of a stretch, nil without one.
local function head_line(stretch)
  local line
  for _, record in ipairs(titles_at(stretch.first, stretch.last)) do
    if line then log.lost("a second box over both columns above the same ones (the first is written)", record.place) end
    line = line or string.format("head %s %d", record.float.name, record.float.height)
    record.done = true
  end
  return line
end

-- The galley may begin with a box over both columns.
local function begin_galley(stretch)
  galley.head = head_line(stretch)
  if not galley.head then return end
  parameters.use_new()
  two_columns = true
end

-- Behind the word of a clear stand the parameters that it changes, and then the box over both columns.
local function go_on(stretch, put)
  local head = head_line(stretch)
  if head then galley.lines[#galley.lines] = "twocolumn" end
  put_sets(put, within_clear.sets)
  if stretch.values then put_sets(put, parameters.changes(stretch.clears, stretch.before, stretch.values)) end
  if not head then return end
  parameters.use_new()
  put(head)
end

-- What a clear or float was made of has no line in a galley, and so no name on a page. Gives what LaTeX changed meanwhile,
-- which holds behind it: the lines that set parameters, and the page's number.
local function changes_within(first, last, clears)
  local lines, number = {}, nil
  for k = first, last do
    local record = records[k]
    record.name = nil
    if record.kind == "page" then number = record.number end
    if record.kind == "set" then lines[#lines + 1] = parameters.change(record, clears) end
  end
  return lines, number
end

local function put_number(put, number)
  if not number then return end
  parameters.use_new()
  put("page " .. number)
end

-- Puts the line or lines that begin with the record at k, which stands after so many clears, and gives the next place.
local function put_record(put, k, clears)
  local record = records[k]
  local float_last, clear_last = float_end(k), clear_end(k)
  if float_last then
    put_float(put, records[float_last])
    local lines, number = changes_within(k, float_last, clears)
    put_sets(put, lines)
    put_number(put, number)
    return float_last + 1
  elseif clear_last then
    put(records[clear_last].columns or "clearpage")
    within_clear.sets, within_clear.number = changes_within(k, clear_last, clears)
    return clear_last + 1
  elseif is_filling(record) and is_penalty(records[k + 1], NEW_PAGE) then
    put("newpage")
    return k + 2
  elseif is_penalty(record, CLEAR) then
    log.lost("penalty -10001 outside a clear (clearpage is written)", record.place)
    put(record.columns or "clearpage")
  elseif record.kind == "insertion" then
    put_insertion(put, record)
  elseif record.kind == "page" then
    put_number(put, record.number)
  elseif record.kind == "set" then
    put_sets(put, { parameters.change(record, clears) })
  elseif record.kind == "penalty" and page_break(record) then
    put(page_break(record))
  else
    if record.empty then record.name = "e" .. record.id
    elseif record.kind == "box" then counts.boxes = counts.boxes + 1 end
    PUT[record.kind](put, record)
  end
  return k + 1
end

-- Puts what stands between two clears.
local function put_stretch(stretch)
  local begins                                 -- the number of the record that the next line begins with
  local function put(line)
    galley.lines[#galley.lines + 1] = line
    galley.begins[#galley.lines], begins = begins, nil
  end
  if stretch.clears == 0 then begin_galley(stretch) else go_on(stretch, put) end
  put_number(put, within_clear.number)
  within_clear = { sets = {} }
  local k = stretch.first
  while k <= stretch.last do
    begins = records[k].id
    k = put_record(put, k, stretch.clears)
  end
end

-- ---- The galley

-- What stands between two clears, in order: first and last place, and the clears before it.
local function stretches()
  local out, first = {}, 1
  for k, record in ipairs(records) do
    if is_penalty(record, CLEAR) then
      out[#out + 1] = { first = first, last = k, clears = #out }
      first = k + 1
    end
  end
  out[#out + 1] = { first = first, last = #records, clears = #out }
  return out
end

-- Gives each stretch the parameters of its columns, nil without any, and those of the columns before it. Returns the first.
local function take_values(list, pages)
  local first, before
  for _, stretch in ipairs(list) do
    local own = parameters.of_part(stretch.clears)
    if own then sides.choose(own, before, stretch.clears, pages) end
    stretch.values, stretch.before = own, before
    first, before = first or own, own or before
  end
  return first
end

-- A galley that is longer than the program takes is written all the same, and told.
local function check_length(path)
  if #galley.lines > MOST_ITEMS then
    log.lost(string.format("a galley of more than %d items (galley_pages refuses %s)", MOST_ITEMS, path), path)
  end
end

-- Writes the galley, and its map for galleybreaks: a line of the galley, and the record that it begins with.
local function write_galley(path, title)
  check_length(path)
  local out, map = assert(io.open(path, "w")), assert(io.open(path .. "map", "w"))
  local written = 0
  local function put(line)
    out:write(line, "\n")
    written = written + 1
  end
  put("galley " .. parameters.version(next(galley.classes) ~= nil))
  put("# " .. title)
  for _, line in ipairs(parameters.lines()) do put(line) end
  for _, line in ipairs(insertions.class_lines(galley.classes)) do put(line) end
  if two_columns then put("twocolumn") end
  if galley.head then put(galley.head) end
  for k = 1, start_notes do put("note start." .. k) end
  if galley.first_page_higher then put("enlarge " .. galley.first_page_higher) end
  for k, line in ipairs(galley.lines) do
    put(line)
    if galley.begins[k] then map:write(written, " ", galley.begins[k], "\n") end
  end
  put("end")
  out:close()
  map:close()
end

-- In one column the first page of all may be higher than those behind it.
local function tell_first_page(by)
  if by == 0 then return end
  parameters.use_new()
  galley.first_page_higher = by
  log.chosen(string.format("the first page is higher by %d (enlarge)", by))
end

local function has_footnotes()
  for _, record in ipairs(records) do
    if record.kind == "insertion" and insertions.is_footnote(record) then return true end
  end
  return false
end

-- Writes the galley of the document. Gives the counts of what stands in it.
function M.write(job, pages)
  parameters.settle(has_footnotes())
  if not two_columns then tell_first_page(parameters.first_page_higher()) end
  local list = stretches()
  parameters.begin_galley(take_values(list, pages))
  for _, stretch in ipairs(list) do put_stretch(stretch) end
  for k = queued + 1, #floats.queue do log.lost("a float that never reached the page builder", floats.queue[k].place) end
  write_galley(job .. ".galley", string.format("%s, written by galleyexport from %s", job, status.banner:sub(1, 60)))
  return counts
end

return M
