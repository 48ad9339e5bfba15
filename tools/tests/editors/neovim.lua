-- A session as a user has it: opens a model, waits for its marks, asks for a name, mends the text and saves it, lays it out.
-- Puts one line for each thing that was seen, into the file that SMV_SEEN names.
local seen = assert(io.open(vim.env.SMV_SEEN, "w"))

local function put(...)
  seen:write(table.concat({ ... }, " "), "\n")
  seen:flush()
end

local function wait(what, condition)
  put(what, tostring(vim.wait(60000, condition, 50)))
end

local function marks()
  return vim.diagnostic.get(0)
end

local function ask(method, params)
  local answers = vim.lsp.buf_request_sync(0, method, params, 60000)
  for _, answer in pairs(answers or {}) do
    return answer.result
  end
end

local function at(line, column)
  vim.api.nvim_win_set_cursor(0, { line, column })
  return vim.lsp.util.make_position_params(0, "utf-16")
end

vim.cmd("edit " .. vim.env.SMV_MODEL)
put("filetype", vim.bo.filetype, vim.bo.syntax)
wait("marks", function() return #marks() > 0 end)
for _, mark in ipairs(marks()) do
  put("mark", mark.lnum + 1, mark.col + 1, mark.message)
end
put("hover", (ask("textDocument/hover", at(4, 2)).contents.value:gsub("\n", " ")))
local places = ask("textDocument/definition", at(6, 9))
put("definition", places[1].range.start.line + 1, places[1].range.start.character + 1)
vim.api.nvim_buf_set_lines(0, 5, 6, false, { "SPEC   AG (x  | !x)" })
vim.cmd("write")
wait("clear", function() return #marks() == 0 end)
if vim.lsp.buf.format then
  vim.lsp.buf.format({ timeout_ms = 60000 })
else
  vim.lsp.buf.formatting_sync(nil, 60000)
end
put("line", vim.api.nvim_buf_get_lines(0, 5, 6, false)[1])
vim.lsp.stop_client(vim.lsp.get_active_clients())
wait("ended", function() return #vim.lsp.get_active_clients() == 0 end)
seen:close()
vim.cmd("qall!")
