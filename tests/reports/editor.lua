-- Opens files with a language server, as docs/EDITORS.md describes, and prints the codes that are shown for each, once
-- those of the last file have come. The variable FILES has their paths, SERVER the words of the server, one a line.
local function lines(name)
  return vim.split(assert(os.getenv(name), name .. " is not set"), "\n")
end

local published = {}
local usual = vim.lsp.handlers["textDocument/publishDiagnostics"]
local client = vim.lsp.start_client({
  name = "pycheck",
  cmd = lines("SERVER"),
  root_dir = vim.fn.getcwd(),
  handlers = {
    ["textDocument/publishDiagnostics"] = function(fault, result, ...)
      usual(fault, result, ...)
      published[vim.uri_to_fname(result.uri)] = true
    end,
  },
})
assert(client, "the server does not start")

local files = lines("FILES")
local buffers = {}
for _, file in ipairs(files) do
  vim.cmd("edit " .. vim.fn.fnameescape(file))
  table.insert(buffers, vim.api.nvim_get_current_buf())
  vim.bo.filetype = "python"
  vim.lsp.buf_attach_client(0, client)
end
if not vim.wait(60000, function() return published[files[#files]] end, 20) then
  io.stdout:write("no diagnostics within 60 seconds\n")
  vim.cmd("cquit 1")
end
for at, file in ipairs(files) do
  local codes = {}
  for _, it in ipairs(vim.diagnostic.get(buffers[at])) do
    local sent = it.user_data and it.user_data.lsp
    table.insert(codes, it.code or (sent and sent.code) or "none")
  end
  io.stdout:write(vim.fn.fnamemodify(file, ":t") .. " " .. table.concat(codes, " ") .. "\n")
end
vim.lsp.stop_client(client)
vim.cmd("qall!")
