-- What one connection asks of a desk post, by wrk: `wrk -t1 -c1 -s post_client.lua URL -- ACCOUNT TANK EACH FILE`. It looks at the total, and
-- at every EACHth request, up to 150 for each second, it commands a gauge reading of its tank, under keys from 1. One that wasn't answered,
-- as the connection ended, is commanded again under its key. Each command that was answered by 200 is a line of the file: its place, how many
-- entries the looks before it found at most, and its body. Any other answer is a line with its status.
local MOST = 150
local account, tank, each, file, began
local turn, key, entries, body = 0, 0, 0, nil

function init(words)
  account, tank, each = words[1], words[2], tonumber(words[3])
  file = io.open(words[4], "w")
  began = os.time()
end

function request()
  turn = turn + 1
  if body then
    return wrk.format("POST", "/gauge", nil, body)
  end
  if turn % each ~= 0 or key >= MOST * (os.time() - began + 1) then
    return wrk.format("GET", "/total")
  end
  key = key + 1
  body = string.format('{"account":%s,"key":%d,"tank":%s,"level":%d,"water":0,"temperature":1500,"ambient":1200}',
    account, key, tank, 1000 + key % 4000)
  return wrk.format("POST", "/gauge", nil, body)
end

function response(status, headers, answer)
  if status ~= 200 then
    file:write(string.format("status %d\n", status))
  elseif body then
    file:write(string.format("%s %d %s\n", string.match(answer, '"place":(%d+)'), entries, body))
    body = nil
  else
    entries = math.max(entries, tonumber(string.match(answer, '"entries":(%d+)')))
    return
  end
  file:flush()
end
