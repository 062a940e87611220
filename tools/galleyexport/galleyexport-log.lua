-- What a galley can't say, and what was not the same all along: counted, with the places where it came.
local M = {}

local PLACES_SHOWN = 6

local losses = {}      -- text -> { count, places }
local uneven = {}      -- text -> number of columns
local redefined = {}   -- names of commands, in the order of the kernel's list
local chosen = {}      -- what was chosen so that it fits LaTeX's pages, as keys

-- The place in the sources that TeX has read up to. Nodes reach the page builder at the end of their paragraph.
function M.here()
  local file = (status.filename or ""):match("[^/]*$")
  return string.format("page %d, %s line %d", tex.count["c@page"], file, status.linenumber)
end

-- Notes that `what` was left out or written otherwise, at `place`, or here without one.
function M.lost(what, place)
  local loss = losses[what]
  if not loss then
    loss = { count = 0, places = {} }
    losses[what] = loss
  end
  loss.count = loss.count + 1
  place = place or M.here()
  local places = loss.places
  if #places <= PLACES_SHOWN and places[#places] ~= place then places[#places + 1] = place end
end

-- Notes that a parameter had another value than the one written, in so many columns.
function M.uneven(what, columns)
  uneven[what] = columns
end

-- Notes what was chosen so that it fits LaTeX's pages, in place of the document's own parameters.
function M.chosen(what)
  chosen[what] = true
end

-- Notes that a class or package gave a command of the kernel's output routine another meaning.
function M.redefined(command)
  redefined[#redefined + 1] = "\\" .. command
end

local function places_text(places)
  local shown = table.concat(places, "; ", 1, math.min(#places, PLACES_SHOWN))
  return #places > PLACES_SHOWN and shown .. "; .." or shown
end

local function lines()
  local out = {}
  for what, loss in pairs(losses) do
    out[#out + 1] = string.format("can't say: %s: %d times (%s)", what, loss.count, places_text(loss.places))
  end
  for what, columns in pairs(uneven) do
    out[#out + 1] = string.format("not the same all along: %s: %d columns", what, columns)
  end
  for what in pairs(chosen) do out[#out + 1] = "by the pages: " .. what end
  table.sort(out)
  if #redefined > 0 then out[#out + 1] = "not the kernel's own: " .. table.concat(redefined, " ") end
  return out
end

-- Writes `summary` and all that was noted to the file, and to TeX's log.
function M.write(path, summary)
  local out = assert(io.open(path, "w"))
  local function put(line)
    out:write("galleyexport: ", line, "\n")
    texio.write_nl("log", "galleyexport: " .. line)
  end
  put(summary)
  for _, line in ipairs(lines()) do put(line) end
  out:close()
end

return M
