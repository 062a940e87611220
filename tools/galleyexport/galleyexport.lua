-- What the macros of galleyexport.sty call. Each subject has a file of its own beside this one:
--   galleyexport-log          what a galley can't say, with its count and places
--   galleyexport-nodes        the nodes that are contributed to the main vertical list, as records
--   galleyexport-floats       floats, marginal notes, boxes over both columns
--   galleyexport-parameters   parameters
--   galleyexport-insertions   the classes of insertions
--   galleyexport-numbers      the numbers of pages
--   galleyexport-pages        the columns and pages that LaTeX made
--   galleyexport-sides        the sides of marginal notes, by LaTeX's pages
--   galleyexport-galley       records as the lines of the galley
-- The galley is written when the document ends, since a float's place and most parameters are known late.

-- Modules stand where TEXINPUTS found the package.
table.insert(package.searchers, 2, function(name)
  local file = kpse.find_file(name .. ".lua", "tex") or kpse.find_file(name .. ".lua", "lua")
  return file and loadfile(file)
end)

local M = {
  log = require("galleyexport-log"),
  nodes = require("galleyexport-nodes"),
  floats = require("galleyexport-floats"),
  parameters = require("galleyexport-parameters"),
  insertions = require("galleyexport-insertions"),
  numbers = require("galleyexport-numbers"),
  pages = require("galleyexport-pages"),
  galley = require("galleyexport-galley"),
}

-- The fault that stopped the export. The document itself goes on.
local fault

-- Does what a macro asks. A fault in it is told once, as a warning, and no galley is written then.
function M.call(what)
  if fault then return end
  local done, message = xpcall(what, debug.traceback)
  if done then return end
  fault = message
  texio.write_nl("log", "galleyexport: " .. message)
  texio.write_nl("term and log", "Package galleyexport Warning: the export stopped at line " .. status.linenumber
    .. ", so no galley is written; the log has the fault.\n")
end

-- The page builder is about to run, for the reason `info`.
local function before_page_builder(info)
  M.call(function()
    if info == "after_output" then
      M.floats.suppressed(false)
      M.parameters.watch(true)
      M.numbers.watch()
      M.nodes.skip_routine()
    else
      M.floats.suppressed(true)
      M.parameters.watch(false)
      M.parameters.watch_routine()
      M.parameters.enter(M.nodes.clears)
      M.floats.titles()
      M.numbers.watch()
      M.nodes.take()
    end
  end)
  return true
end

-- The document begins: nodes are followed from here on. What the class left on the page is counted.
function M.begin(two_columns)
  M.galley.begin(two_columns)
  luatexbase.add_to_callback("buildpage_filter", before_page_builder, "galleyexport")
end

-- The document's first text may come: from here on a count of floats that becomes 0 is a suppression.
function M.begun()
  M.floats.suppressed(false)
end

-- Each page is told in the log, between the places that TeX weighs for it.
function M.trace()
  M.pages.traced = true
  texio.write_nl("log", "galleyexport: trace")
end

-- The document has ended: all files are written. A name with spaces has quotes round it in TeX, and none in a folder.
function M.finish()
  local job = tex.jobname:gsub('"', "")
  local counts = M.galley.write(job, M.pages.list)
  M.pages.write(job .. ".pages")
  M.log.write(job .. ".galleylog", string.format(
    "%d records, %d boxes, %d footnotes, %d floats, %d marginal notes, %d pages",
    #M.nodes.records, counts.boxes, counts.footnotes, counts.floats, counts.margins, #M.pages.list))
end

return M
