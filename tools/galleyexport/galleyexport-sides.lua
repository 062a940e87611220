-- The sides of marginal notes. In one column LaTeX puts a note to the right; to the left on even pages if `mparswitch` is
-- on, and all the other way round if `reversemargin` is on. A class may have a rule of its own. The sides are known when the
-- pages are made, so that setting is written by which all notes stand where they do.
local log = require("galleyexport-log")

local M = {}

-- The pages that LaTeX made after so many clears.
local function pages_after(clears, pages)
  local out = {}
  for _, page in ipairs(pages) do
    if page.clears == clears then out[#out + 1] = page end
  end
  return out
end

-- The sides of the notes in columns as wide as the page, each with the number that its page had then.
local function notes_of(pages)
  local out = {}
  for _, page in ipairs(pages) do
    for _, item in ipairs(page.kind == "one" and page.columns[1].items or {}) do
      if item.kind == "margin" then out[#out + 1] = { page = item.float.page or page.number, side = item.side } end
    end
  end
  return out
end

-- Whether all notes stand where LaTeX's rule puts them.
local function fits(notes, switch, reverse)
  for _, note in ipairs(notes) do
    local left = switch == "on" and note.page % 2 == 0
    if reverse == "on" then left = not left end
    if (note.side == "left") ~= left then return false end
  end
  return true
end

-- Sets `mparswitch` and `reversemargin` of a part, the one after so many clears, by the notes on its pages: the document's
-- own setting goes first, then that of the part `before`.
function M.choose(values, before, clears, pages)
  local notes = notes_of(pages_after(clears, pages))
  if #notes == 0 then return end
  local own = { values.mparswitch, values.reversemargin }
  local last = before and { before.mparswitch, before.reversemargin } or own
  for k, setting in ipairs { own, last, { "off", "off" }, { "off", "on" }, { "on", "off" }, { "on", "on" } } do
    if fits(notes, setting[1], setting[2]) then
      values.mparswitch, values.reversemargin = setting[1], setting[2]
      if k > 1 then
        log.chosen(string.format("mparswitch %s and reversemargin %s are written, by which all marginal notes stand",
          setting[1], setting[2]))
      end
      return
    end
  end
  log.lost("the sides of marginal notes, which fit no setting", "the whole document")
end

return M
