local function bytes_of(text)
  local sum = 0
  for i = 1, #text do
    sum = sum + text:byte(i)
  end
  return sum
end

local function run()
  local sum, last = 0, ""
  for i = 1, 20000 do
    local text = "item " .. tostring(i) .. ";"
    if text < last then
      sum = sum + 1
    end
    sum = sum + bytes_of(text:sub(6, -2))
    last = text
  end
  return sum
end

local result
for _ = 1, tonumber(arg[1]) do
  result = run()
end
print(result)
