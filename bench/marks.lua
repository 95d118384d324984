-- What `bench marks` does, by Neovim's own calls. bench/marks.py runs it; the numbers that look
-- random are the same ones, so both come to the same sums, and the lines printed are alike.
local count, ends = tonumber(vim.env.MARKS), vim.env.ENDS == 'ends'
local edits, line, line_end = 500, 'let column = 0; // x', 20
local api, now = vim.api, vim.loop.hrtime
local ns = api.nvim_create_namespace('marks')
local state = 1

local function below(n)
  state = (state * 1664525 + 1013904223) % 4294967296
  return math.floor(state / 256) % n
end

local function set_all()
  for id = 1, count do
    local row = below(count) + 1
    local options = { id = id }
    if ends then
      options.end_row = math.min(row + 3, count)
      options.end_col = line_end
    end
    api.nvim_buf_set_extmark(0, ns, row, below(line_end) + 1, options)
  end
  return function()
    return #api.nvim_buf_get_extmarks(0, ns, 0, -1, {})
  end
end

local function edit_all()
  for _ = 1, edits do
    api.nvim_buf_set_lines(0, 0, 0, true, { line })
    api.nvim_buf_set_lines(0, 0, 1, true, {})
  end
  return function()
    return 2 * edits + 1
  end
end

local function sum_of(row, col, details)
  return row + col + (ends and details.end_row + details.end_col or 0)
end

local function list_all()
  local marks = api.nvim_buf_get_extmarks(0, ns, 0, -1, { details = ends })
  return function()
    local sum = 0
    for _, mark in ipairs(marks) do
      sum = sum + sum_of(mark[2], mark[3], mark[4])
    end
    return sum
  end
end

local function find_all()
  local sum = 0
  for _ = 1, count do
    local mark = api.nvim_buf_get_extmark_by_id(0, ns, below(count) + 1, { details = ends })
    sum = sum + sum_of(mark[1], mark[2], mark[3])
  end
  return function()
    return sum
  end
end

-- What a call costs that does nearly nothing.
local function call_all()
  for _ = 1, count do
    api.nvim_buf_line_count(0)
  end
  return function()
    return count
  end
end

local function measure(work, call)
  local start = now()
  local told = call()
  local taken = now() - start
  io.stdout:write(string.format('%s: %.0f, %.0f ns\n', work, told(), taken))
end

local lines = {}
for row = 1, count + 1 do
  lines[row] = line
end
api.nvim_buf_set_lines(0, 0, -1, true, lines)
measure('set', set_all)
measure('set again', set_all)
measure('edit', edit_all)
measure('list', list_all)
measure('find', find_all)
measure('call', call_all)
