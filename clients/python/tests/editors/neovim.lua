-- Neovim itself as a client: theories are opened, typed in, looked at.
-- `nvim --headless -u NONE -c "luafile neovim.lua"` in a folder with A.thy and B.thy, with PIDE_NEOVIM naming
-- clients/neovim; the exit status is 1 where something differs.

local function check(name, holds)
  if not vim.wait(20000, holds, 20) then
    io.stderr:write("failed: " .. name .. "\n")
    vim.cmd("cquit 1")
  end
  io.stdout:write("ok: " .. name .. "\n")
end

local function messages()
  return vim.tbl_map(function(found) return found.message end, vim.diagnostic.get(0))
end

local function ask(method, params)
  local answers = vim.lsp.buf_request_sync(0, method, params or vim.lsp.util.make_position_params(), 20000)
  local _, answer = next(answers or {})
  return answer and answer.result
end

vim.o.hidden = true
vim.opt.runtimepath:append(vim.env.PIDE_NEOVIM)
require("pide").setup()
vim.cmd("edit B.thy")
check("the server is started", function()
  local _, client = next(vim.lsp.buf_get_clients(0))
  return client and client.initialized
end)
check("a theory that is right has no diagnostics", function()
  return ask("pide/checked", {}) and #vim.diagnostic.get(0) == 0
end)

vim.api.nvim_buf_set_text(0, 1, 21, 1, 22, { "k" })
check("an error comes under the key", function() return vim.tbl_contains(messages(), "unknown name k") end)
check("it stands at its proof", function()
  local found = vim.diagnostic.get(0)[1]
  return found.lnum == 1 and found.col == 18 and found.end_col == 22
end)
vim.api.nvim_buf_set_text(0, 1, 21, 1, 22, { "a" })
check("and goes when it is put right", function() return #vim.diagnostic.get(0) == 0 end)

vim.api.nvim_win_set_cursor(0, { 2, 21 })
check("hover tells the formula and the state", function()
  local text = ask("textDocument/hover").contents.value
  return text:find("fact A.a: P", 1, true) and text:find("theory B", 1, true)
end)
vim.lsp.buf.definition()
check("a definition in an imported theory is gone to", function()
  return vim.fn.expand("%:t") == "A.thy" and vim.deep_equal(vim.api.nvim_win_get_cursor(0), { 2, 6 })
end)

vim.cmd("edit B.thy")
vim.api.nvim_buf_set_lines(0, 2, 2, false, { 'lemma e: "P & Q --> P"' })
vim.api.nvim_win_set_cursor(0, { 3, 3 })
require("pide").open_state()
check("the state's window follows the cursor", function()
  local lines = vim.api.nvim_buf_get_lines(vim.fn.bufnr("pide-state"), 0, -1, false)
  return lines[1] == "prove: P & Q --> P"
end)
check("an open lemma is reported softly", function() return vim.tbl_contains(messages(), "the proof of e is missing") end)
local params = vim.lsp.util.make_range_params()
params.context = { diagnostics = {} }
local actions = ask("textDocument/codeAction", params)
vim.lsp.util.apply_workspace_edit(actions[1].edit, "utf-16")
check("the proof that was found is put in, and is right", function()
  return ask("pide/checked", {}) and #vim.diagnostic.get(0) == 0
end)
check("the text has it", function() return vim.api.nvim_buf_get_lines(0, 2, 3, false)[1]:find(" by (impI", 1, true) end)
vim.cmd("qall!")
