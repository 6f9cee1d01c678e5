-- Uses a language server as a person does in Neovim, and prints what it sees, one line each.
--
--     nvim --headless --clean -l ... is newer; so: nvim --headless -u NONE --cmd 'luafile neovim.lua' FILE
--
-- The environment names the server (MBE_LSP) and the file (MBE_FILE).
local server, file = os.getenv("MBE_LSP"), os.getenv("MBE_FILE")

local function say(name, value)
  io.stdout:write(name .. "\t" .. vim.fn.json_encode(value) .. "\n")
end

-- Waits until a condition holds, for at most ten seconds.
local function wait(what, condition)
  if not vim.wait(10000, condition, 10) then
    say("timeout", what)
    vim.cmd("cquit 1")
  end
end

local function lines()
  return table.concat(vim.api.nvim_buf_get_lines(0, 0, -1, false), "\n")
end

local function diagnostics()
  local found = {}
  for _, it in ipairs(vim.diagnostic.get(0)) do
    table.insert(found, { it.lnum, it.col, it.severity, it.message })
  end
  return found
end

local function cursor(line, column)
  vim.api.nvim_win_set_cursor(0, { line + 1, column })
end

-- Sends a request on the cursor, and returns the result.
local function ask(method, params)
  local answers = vim.lsp.buf_request_sync(0, method, params or vim.lsp.util.make_position_params(), 10000)
  for _, answer in pairs(answers or {}) do
    return answer.result
  end
end

vim.cmd("edit " .. file)
local id = vim.lsp.start_client({ name = "mbe-lsp", cmd = { server }, root_dir = vim.fn.fnamemodify(file, ":h") })
wait("start", function()
  local client = vim.lsp.get_client_by_id(id)
  return client and client.initialized
end)
vim.lsp.buf_attach_client(0, id)

-- The file has no fault. A word is typed that no rule expects, and taken away again.
local last = vim.api.nvim_buf_line_count(0)
cursor(last - 1, 0)
vim.api.nvim_feedkeys(vim.api.nvim_replace_termcodes("f1cwfn<Esc>", true, false, true), "tx", false)
say("typed", lines())
wait("diagnostic", function() return #vim.diagnostic.get(0) > 0 end)
say("diagnostics", diagnostics())
vim.cmd("undo")
wait("no diagnostic", function() return #vim.diagnostic.get(0) == 0 end)

-- Hover, and a jump to the rule.
local column = vim.api.nvim_buf_get_lines(0, last - 1, last, false)[1]:find("two!", 1, true) - 1
cursor(last - 1, column)
say("hover", ask("textDocument/hover").contents.value)
vim.lsp.buf.definition()
wait("jump", function() return vim.api.nvim_win_get_cursor(0)[1] == 2 end)
say("jump", vim.api.nvim_win_get_cursor(0))

-- Symbols, completion and the expansion.
local symbols = {}
for _, it in ipairs(ask("textDocument/documentSymbol", { textDocument = vim.lsp.util.make_text_document_params() })) do
  for _, rule in ipairs(it.children) do
    table.insert(symbols, it.name .. " " .. rule.name)
  end
end
say("symbols", symbols)
cursor(last - 1, column)
say("expansion", ask("rust-analyzer/expandMacro"))

-- Where the first token of the expansion is from, lenses and semantic tokens.
local place = vim.lsp.util.make_position_params()
place.origins = true
say("origin", ask("mbe/expansion", place).origins[1].location.range.start)
local document = { textDocument = vim.lsp.util.make_text_document_params() }
local titles = {}
for _, it in ipairs(ask("textDocument/codeLens", document)) do
  table.insert(titles, it.command.title)
end
say("lenses", titles)
say("tokens", ask("textDocument/semanticTokens/full", document).data)

-- The call is inlined by the first code action.
local params = vim.lsp.util.make_range_params()
params.context = { diagnostics = {} }
local action = ask("textDocument/codeAction", params)[1]
say("action", action.title)
vim.lsp.util.apply_workspace_edit(action.edit, "utf-16")
say("inlined", lines())

-- A trailing comma is typed, which a rule may accept.
vim.api.nvim_buf_set_lines(0, last - 1, last, false, { "fn main() { let x = two!(1,); }" })
wait("comma", function() return #vim.diagnostic.get(0) > 0 end)
cursor(last - 1, 20)
local fixes = vim.lsp.util.make_range_params()
fixes.context = { diagnostics = {}, only = { "quickfix" } }
say("fix", ask("textDocument/codeAction", fixes)[1].title)

vim.lsp.stop_client(id)
wait("stop", function() return vim.lsp.get_client_by_id(id) == nil end)
say("stopped", true)
vim.cmd("qall!")
