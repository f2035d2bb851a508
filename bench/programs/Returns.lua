local function place_in(numbers, test)
  for i = 1, #numbers do
    if test(numbers[i]) then
      return i
    end
  end
  return 0
end

local function run()
  local numbers, sum = {}, 0
  for i = 1, 40 do
    numbers[i] = i
  end
  for i = 1, 10000 do
    sum = sum + place_in(numbers, function(n) return n * n >= i % 1600 end)
  end
  return sum
end

local result
for _ = 1, tonumber(arg[1]) do
  result = run()
end
print(result)
