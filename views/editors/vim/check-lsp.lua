-- Neovim beside views/lsp: what it shows, and what it does when asked.
--     nvim --headless -u INIT -c 'luafile check-lsp.lua' FILE        INIT has the lines of README.md
local function say(...) io.stdout:write(table.concat({ ... }, " ") .. "\n") end
local buffer = vim.api.nvim_get_current_buf()
vim.wait(20000, function() return #vim.lsp.get_active_clients() > 0 end)
local client = vim.lsp.get_active_clients()[1].id
local function line(number) return vim.api.nvim_buf_get_lines(buffer, number - 1, number, false)[1] or "" end
vim.wait(20000, function() return #vim.diagnostic.get(buffer) > 0 end)
for _, it in ipairs(vim.diagnostic.get(buffer)) do
  say("mark", it.lnum + 1, line(it.lnum + 1):sub(it.col + 1, it.end_col))
end
vim.ui.select = function(items, _, taken) taken(items[1], 1) end
vim.api.nvim_win_set_cursor(0, { 3, 10 })
vim.lsp.buf.code_action()
vim.wait(20000, function() return line(3):match("FIVE") ~= nil end)
say("line", (line(3):gsub("\t", " ")))
local function ask(method, more)
  local place = { textDocument = { uri = vim.uri_from_bufnr(buffer) }, position = { line = 6, character = 17 } }
  local answers = vim.lsp.buf_request_sync(buffer, method, vim.tbl_extend("force", place, more or {}), 20000)
  return answers[client].result
end
say("definition", ask("textDocument/definition").range.start.line + 1)
vim.lsp.util.apply_workspace_edit(ask("textDocument/rename", { newName = "AGAIN" }), "utf-16")
local count = 0
for number = 1, vim.api.nvim_buf_line_count(buffer) do
  if line(number):match("AGAIN") then count = count + 1 end
end
say("renamed", count)
vim.lsp.stop_client(client)
vim.wait(1000, function() return vim.lsp.get_client_by_id(client) == nil end)
vim.cmd("qa!")
