-- Opens a file with the language server, prints its diagnostics, mends two lines, and prints them after each change.
-- A line printed is `LINE:COLUMN CODE`, both numbers from 1, the column in bytes; each list ends with a line `--`.
local program = assert(os.getenv("PYCHECK_SERVER"), "PYCHECK_SERVER names the server")
local file = assert(os.getenv("PYCHECK_FILE"), "PYCHECK_FILE names the file")
local published = 0

local function code_of(diagnostic)
  local sent = diagnostic.user_data and diagnostic.user_data.lsp
  return diagnostic.code or (sent and sent.code) or "none"
end

local function print_after(count, buffer)
  if not vim.wait(20000, function() return published >= count end, 20) then
    io.stdout:write("no diagnostics within 20 seconds\n")
    vim.cmd("cquit 1")
  end
  local found = vim.diagnostic.get(buffer)
  table.sort(found, function(a, b) return a.lnum < b.lnum or (a.lnum == b.lnum and a.col < b.col) end)
  for _, diagnostic in ipairs(found) do
    io.stdout:write(string.format("%d:%d %s\n", diagnostic.lnum + 1, diagnostic.col + 1, code_of(diagnostic)))
  end
  io.stdout:write("--\n")
end

vim.cmd("edit " .. vim.fn.fnameescape(file))
local buffer = vim.api.nvim_get_current_buf()
local usual = vim.lsp.handlers["textDocument/publishDiagnostics"]
local client = vim.lsp.start_client({
  name = "pycheck",
  cmd = { program, "--stdio" },
  root_dir = vim.fn.getcwd(),
  handlers = {
    ["textDocument/publishDiagnostics"] = function(...)
      usual(...)
      published = published + 1
    end,
  },
})
assert(client, "the server does not start")
vim.lsp.buf_attach_client(buffer, client)
print_after(1, buffer)
vim.api.nvim_buf_set_lines(buffer, 3, 4, true, { "    return 0" })
print_after(2, buffer)
vim.api.nvim_buf_set_lines(buffer, 5, 6, true, { "def next_year(age: int) -> int:" })
print_after(3, buffer)
vim.lsp.stop_client(client)
vim.cmd("qall!")
