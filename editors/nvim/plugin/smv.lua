-- Starts the language server for each model. `vim.g.smv_command` is the command, as { "smv", "lsp" }; where none is set it is
-- the ./smv of this repository, or else the `smv` of the path.
if vim.g.loaded_smv then
  return
end
vim.g.loaded_smv = true

local here = vim.fn.fnamemodify(vim.fn.resolve(debug.getinfo(1, "S").source:sub(2)), ":p:h")
local of_repository = vim.fn.fnamemodify(here .. "/../../../smv", ":p")

local function command()
  if vim.g.smv_command then
    return vim.g.smv_command
  end
  return { vim.fn.executable(of_repository) == 1 and of_repository or "smv", "lsp" }
end

-- One server serves all models.
local client

local function start(buffer)
  if not client or not vim.lsp.get_client_by_id(client) then
    client = vim.lsp.start_client({ name = "smv", cmd = command(), root_dir = vim.fn.getcwd() })
  end
  if client then
    vim.lsp.buf_attach_client(buffer, client)
    vim.bo[buffer].omnifunc = "v:lua.vim.lsp.omnifunc"
  end
end

vim.api.nvim_create_autocmd("FileType", {
  pattern = "smv",
  callback = function(event)
    start(event.buf)
  end,
})
