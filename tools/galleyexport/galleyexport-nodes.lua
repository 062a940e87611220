-- The nodes that are contributed to the main vertical list. Each becomes a record when the page builder is about to
-- run, and gets the record's number as an attribute; so LaTeX's own pages tell later which node stands where.
--
-- A record has `kind`, `id`, `place` (in the sources) and by its kind:
--   box, rule    name, height, depth; empty: a vbox of nothing, as \clearpage and floats put it
--   glue         width, stretch, stretch_order, shrink, shrink_order, leaders
--   kern         width
--   penalty      value; page_break: what \pagebreak or \nopagebreak set; columns: the change that this clear makes
--   mark, note   name (a note is a whatsit); of a mark the class too
--   insertion    class, cost, split_depth, leaves (records)
--   title        float (a box over both columns), put in by galleyexport-floats
--   suppress     area, likewise
--   page         number, put in by galleyexport-numbers
--   set          parameter, and what was seen of it, put in by galleyexport-parameters
local log = require("galleyexport-log")

local M = {}

-- The attribute of a node: its record's number, or 0 for one that the output routine made.
local RECORD = luatexbase.new_attribute("gx@record")
local BREAK                                    -- the attribute of \pagebreak's penalty
local NODE = {}
for _, name in ipairs { "hlist", "vlist", "rule", "ins", "mark", "glue", "kern", "penalty", "whatsit", "glyph", "disc" } do
  NODE[name] = node.id(name)
end
M.NODE = NODE

-- TeX's commands of tokens: a character's is its category.
local OPENS, CLOSES, SPACE, LETTER, OTHER = 1, 2, 10, 11, 12
local IS_SIZED = { [token.command_id("hskip")] = true, [token.command_id("kern")] = true }

local CLEAR_PENALTY = -10001
local LONGEST_NAME = 63
local WORDS_IN_NAME = 52

M.records = {}         -- what was contributed, in order
M.clears = 0           -- how many of them are the penalty of a clear
local by_id = {}       -- all records, those of footnotes' leaves too
local change           -- "onecolumn" or "twocolumn": what the next clear is for

function M.break_attribute(number) BREAK = number end
function M.columns(word) change = word end

-- The record of a node, nil where it has none: a node of the output routine, or one that came to no list.
function M.record_of(n)
  local id = node.get_attribute(n, RECORD)
  return id and by_id[id]
end

-- ---- Names: the record's number and the first words

local ASCII = {
  [0xFB00] = "ff", [0xFB01] = "fi", [0xFB02] = "fl", [0xFB03] = "ffi", [0xFB04] = "ffl", [0x2013] = "-", [0x2014] = "-",
  [11] = "ff", [12] = "fi", [13] = "fl", [14] = "ffi", [15] = "ffl",                    -- TeX's old text fonts
  [27] = "ff", [28] = "fi", [29] = "fl", [30] = "ffi", [31] = "ffl",                    -- the Cork encoding
  [0xDF] = "ss", [0xE0] = "a", [0xE1] = "a", [0xE2] = "a", [0xE3] = "a", [0xE4] = "a", [0xE5] = "a", [0xE6] = "ae",
  [0xE7] = "c", [0xE8] = "e", [0xE9] = "e", [0xEA] = "e", [0xEB] = "e", [0xEC] = "i", [0xED] = "i", [0xEE] = "i",
  [0xEF] = "i", [0xF1] = "n", [0xF2] = "o", [0xF3] = "o", [0xF4] = "o", [0xF5] = "o", [0xF6] = "o", [0xF8] = "o",
  [0xF9] = "u", [0xFA] = "u", [0xFB] = "u", [0xFC] = "u", [0xFD] = "y", [0xFF] = "y",
}

-- The bytes that a galley's name may have.
local function clean(text) return (text:gsub("[^A-Za-z0-9._-]", "")) end
M.clean = clean

local function letters(character)
  local text = ASCII[character]
  if text or character >= 128 then return text or "" end
  return clean(string.char(character))
end

-- Adds the words of a list to `words`, up to the length of a name.
local function gather(head, words)
  local function add(text)
    if text == "" then return end
    words[#words + 1] = text
    words.length = words.length + #text
  end
  for n in node.traverse(head) do
    if words.length >= WORDS_IN_NAME then return end
    if n.id == NODE.glyph then
      add(letters(n.char))
    elseif n.id == NODE.glue then
      if n.width > 65536 and words.length > 0 and words[#words] ~= "-" then add("-") end
    elseif n.id == NODE.disc then
      if n.replace then gather(n.replace, words) end
    elseif (n.id == NODE.hlist or n.id == NODE.vlist) and n.head then
      gather(n.head, words)
    end
  end
end

-- A number with words, as a name.
local function with_words(number, text)
  text = text:gsub("^-+", ""):gsub("-+$", "")
  return text == "" and number or (number .. "." .. text):sub(1, LONGEST_NAME)
end

-- The name of a box: b for a horizontal one, v for a vertical one, its number, and its words.
function M.box_name(n, id)
  local words = { length = 0 }
  if n.head then gather(n.head, words) end
  return with_words((n.id == NODE.vlist and "v" or "b") .. id, table.concat(words))
end

-- The words of a mark, its parts in braces apart. The size of a skip or kern among them is left out.
local function mark_words(tokens)
  local words, depth, in_size = {}, 0, false
  for _, token in ipairs(tokens) do
    local command, character = token[1], token[2]
    if command == LETTER or command == OTHER then
      if not in_size then words[#words + 1] = letters(character) end
    else
      in_size = IS_SIZED[command]
      depth = depth + (command == OPENS and 1 or command == CLOSES and -1 or 0)
      if command == SPACE or in_size or (command == CLOSES and depth == 0) then words[#words + 1] = "-" end
    end
  end
  return table.concat(words):gsub("-+", "-"):sub(1, WORDS_IN_NAME)
end

-- ---- Records

local function new_record(n, record)
  record.id = #by_id + 1
  record.place = log.here()
  by_id[record.id] = record
  node.set_attribute(n, RECORD, record.id)
  return record
end

local leaves

local function box_record(n)
  local nothing = n.id == NODE.vlist and not n.head and n.height == 0 and n.depth == 0
  local record = new_record(n, { kind = "box", height = n.height, depth = n.depth, empty = nothing })
  record.name = M.box_name(n, record.id)
  return record
end

local function rule_record(n)
  local record = new_record(n, { kind = "rule", height = n.height, depth = n.depth })
  record.name = "r" .. record.id
  return record
end

local function glue_record(n)
  return new_record(n, { kind = "glue", width = n.width, stretch = n.stretch, stretch_order = n.stretch_order,
    shrink = n.shrink, shrink_order = n.shrink_order, leaders = n.leader ~= nil })
end

local function penalty_record(n)
  return new_record(n, { kind = "penalty", value = n.penalty, page_break = BREAK and node.get_attribute(n, BREAK) })
end

-- LaTeX has marks of its own in other classes, from which a running head is made too; only that of class 0 is TeX's.
local function mark_record(n)
  local record = new_record(n, { kind = "mark", class = n.class })
  record.name = n.class == 0 and with_words("m" .. record.id, mark_words(n.mark)) or "w" .. record.id .. ".mark" .. n.class
  return record
end

local function note_record(n)
  local record = new_record(n, { kind = "note" })
  record.name = "w" .. record.id .. "." .. clean(node.whatsits()[n.subtype] or tostring(n.subtype))
  return record
end

local function insertion_record(n)
  local record = new_record(n, { kind = "insertion", class = n.subtype, cost = n.cost, split_depth = n.depth })
  record.leaves = leaves(n.head)
  return record
end

local RECORD_OF = {
  [NODE.hlist] = box_record, [NODE.vlist] = box_record, [NODE.rule] = rule_record, [NODE.glue] = glue_record,
  [NODE.kern] = function(n) return new_record(n, { kind = "kern", width = n.kern }) end,
  [NODE.penalty] = penalty_record, [NODE.mark] = mark_record, [NODE.whatsit] = note_record,
  [NODE.ins] = insertion_record,
}

-- The record of a node, nil where a galley has no word for it.
local function recorded(n)
  local make = RECORD_OF[n.id]
  if make then return make(n) end
  log.lost("a node of type " .. node.type(n.id))
end

-- A footnote holds boxes, rules, glue, kerns and penalties alone.
local NOT_IN_FOOT = { mark = "a mark in a footnote", note = "a whatsit in a footnote",
  insertion = "an insertion in a footnote" }

function leaves(head)
  local out = {}
  for n in node.traverse(head) do
    local record = recorded(n)
    if record and NOT_IN_FOOT[record.kind] then
      log.lost(NOT_IN_FOOT[record.kind])
    else
      out[#out + 1] = record
    end
  end
  return out
end

-- ---- The list of contributions

-- Appends a record of another subject, after all that was contributed before.
function M.add(record)
  record.place = log.here()
  M.records[#M.records + 1] = record
end

local IS_FIRST = { [NODE.hlist] = true, [NODE.vlist] = true, [NODE.rule] = true, [NODE.ins] = true }

-- The record of the first box, rule or insertion that is back among the contributions, nil without one.
local function first_back()
  local n = tex.lists.contrib_head
  while n do
    local record = IS_FIRST[n.id] and M.record_of(n)
    if record then return record end
    n = n.next
  end
end

-- The record of the first insertion on a page that has no box and no rule yet, nil without one.
local function first_without_text()
  local first
  local n = tex.lists.page_head
  while n do
    if n.id == NODE.ins then first = first or M.record_of(n)
    elseif IS_FIRST[n.id] then return nil end
    n = n.next
  end
  return first
end

-- Puts a record before another one, or after all without one.
local function add_before(other, record)
  record.place = log.here()
  for k = other and #M.records or 0, 1, -1 do
    if M.records[k] == other then return table.insert(M.records, k, record) end
  end
  M.records[#M.records + 1] = record
end

-- Puts a record where the next page begins: before the first box, rule or insertion that is back among the contributions.
function M.add_at_page(record) add_before(first_back(), record) end

-- Puts a record after all that was contributed, but on a page with insertions alone before these: to TeX such a page is one
-- that its first box begins, to a galley it has begun.
function M.add_at_text(record) add_before(first_without_text(), record) end

-- Called with each node that is contributed, and its record; galleybreaks puts its breaks in here.
function M.contributed(_, _) end

-- Takes what was contributed since the page builder ran last.
function M.take()
  local n = tex.lists.contrib_head
  while n do
    if not node.get_attribute(n, RECORD) then
      local record = recorded(n)
      M.records[#M.records + 1] = record
      if record and record.value == CLEAR_PENALTY then
        record.columns, change = change, nil
        M.clears = M.clears + 1
      end
      if record then M.contributed(n, record) end
    end
    n = n.next
  end
end

-- Puts a node before one that is contributed. As it is none of the document's, it has the number 0.
function M.put_before(n, new)
  node.set_attribute(new, RECORD, 0)
  local head = tex.lists.contrib_head
  local first = node.insert_before(head, n, new)
  if first ~= head then tex.lists.contrib_head = first end
end

-- What the output routine put back or made is none of the document's.
function M.skip_routine()
  local n = tex.lists.contrib_head
  while n do
    if not node.get_attribute(n, RECORD) then node.set_attribute(n, RECORD, 0) end
    n = n.next
  end
end

return M
