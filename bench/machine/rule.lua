-- The same rule as a Lua program over the same roll file.
local roll = io.open(arg[1], "r")
local rates = {}
for k = 0, 9 do rates[k] = 3 * k + 5 end
local n = roll:read("n")
local total = 0
for i = 1, n do
  local status, age, pay = roll:read("n", "n", "n")
  if status == 1 then
    total = total + pay * rates[age // 10] // 100
  elseif status == 2 then
    total = total + pay * rates[age // 10] // 200
  elseif status == 3 then
    total = total + pay
  end
end
print(total)
