-- The numbers of the document's pages. A page has one more than the page before, unless the document says otherwise, as
-- by \setcounter{page} or \pagenumbering: then a record tells it, at the place where the page builder comes to it. What the
-- output routine sets is for the page after the one that it made: of that page the builder saw some lines already, so the
-- record comes behind all that was contributed.
local log = require("galleyexport-log")
local nodes = require("galleyexport-nodes")

local M = {}

local MOST = 1000000   -- the greatest number that a galley can set
local now = 1          -- the number of the page that is being made, as the records tell it
local unsaid           -- the document's number of this page, if no record can tell it

-- A page is shipped.
function M.shipped()
  now, unsaid = now + 1, nil
end

-- Looks at the page's number.
function M.watch()
  local number = tex.count["c@page"]
  if number == now or number == unsaid then return end
  if number >= 0 and number <= MOST then
    now, unsaid = number, nil
    nodes.add { kind = "page", number = number }
  else
    unsaid = number
    log.lost(string.format("the page number %d", number))
  end
end

return M
