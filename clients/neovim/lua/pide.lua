-- Theories in Neovim: starts the language server for files NAME.thy, and shows the state at the cursor beside the text.
-- docs/LANGUAGE_SERVER.md tells how it is set up. It is written for Neovim 0.7 and later.

local M = { delay = 100 }

local source = debug.getinfo(1, "S").source:sub(2)
local python = vim.fn.fnamemodify(source, ":p:h:h:h") .. "/python"
local client_id, state_buffer, timer

local function start(options)
  local path = vim.env.PYTHONPATH
  client_id = vim.lsp.start_client({
    name = "pide",
    cmd = options.cmd or { "python3", "-m", "pide", "lsp" },
    cmd_env = vim.tbl_extend("force", {
      PYTHONPATH = python .. (path and ":" .. path or ""),
      PIDE = options.program,
    }, options.env or {}),
    flags = { debounce_text_changes = 0 },  -- the server gathers changes itself
    on_attach = options.on_attach,
    on_exit = function() client_id = nil end,
  })
end

local function attach(options)
  if not client_id then start(options) end
  if client_id then vim.lsp.buf_attach_client(0, client_id) end
end

local function show(state)
  local lines = vim.split(state.pending and state.state == "" and "not checked yet" or state.state, "\n")
  for _, text in ipairs(state.errors) do vim.list_extend(lines, vim.split("error: " .. text, "\n")) end
  if type(state.suggestion) == "string" then table.insert(lines, "found: " .. state.suggestion) end
  vim.api.nvim_buf_set_lines(state_buffer, 0, -1, false, lines)
end

local function is_shown() return state_buffer and vim.fn.bufwinid(state_buffer) ~= -1 end

local ask
function ask()
  local client = client_id and vim.lsp.get_client_by_id(client_id)
  if not (client and is_shown() and vim.lsp.buf_is_attached(0, client_id)) then return end
  local place = vim.lsp.util.make_position_params(0, client.offset_encoding)
  client.request("pide/state", place, function(_, state)
    if not (state and is_shown()) then return end
    show(state)
    if state.pending then timer:start(5 * M.delay, 0, vim.schedule_wrap(ask)) end
  end, 0)
end

-- Opens a window that shows the state behind the command at the cursor, and follows it.
function M.open_state()
  if not state_buffer then
    state_buffer = vim.api.nvim_create_buf(false, true)
    vim.api.nvim_buf_set_name(state_buffer, "pide-state")
  end
  if not is_shown() then
    vim.cmd("vertical botright sbuffer " .. state_buffer .. " | wincmd p")
  end
  ask()
end

-- Has the files NAME.thy served. `program` names the engine's program, else that of PIDE or of the checkout is taken.
function M.setup(options)
  options = options or {}
  timer = timer or vim.loop.new_timer()
  local group = vim.api.nvim_create_augroup("pide", {})
  local function on(events, callback)
    vim.api.nvim_create_autocmd(events, { group = group, pattern = "*.thy", callback = callback })
  end
  on({ "BufRead", "BufNewFile" }, function()
    vim.bo.filetype = "pide"
    attach(options)
  end)
  on({ "CursorMoved", "CursorMovedI", "TextChanged", "TextChangedI" }, function()
    timer:start(M.delay, 0, vim.schedule_wrap(ask))
  end)
  vim.api.nvim_create_user_command("PideState", M.open_state, {})
end

return M
