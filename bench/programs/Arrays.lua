local function turn_round(numbers)
  local low, high = 1, #numbers
  while low < high do
    local kept = numbers[low]
    numbers[low] = numbers[high]
    numbers[high] = kept
    low = low + 1
    high = high - 1
  end
end

local function run()
  local numbers, sum = {}, 0
  for round = 1, 100 do
    for i = 1, 1000 do
      numbers[i] = i * round
    end
    turn_round(numbers)
    for _, each in ipairs(numbers) do
      sum = sum + each
    end
  end
  return sum
end

local result
for _ = 1, tonumber(arg[1]) do
  result = run()
end
print(result)
