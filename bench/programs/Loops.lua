local function run()
  local sum = 0
  for i = 1, 3000000 do
    sum = (sum + i) % 65521
  end
  return sum
end

local result
for _ = 1, tonumber(arg[1]) do
  result = run()
end
print(result)
