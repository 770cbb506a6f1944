-- A Wireshark dissector of what crosses the interface of a host and its IMP, as `./export --pcapng` writes it: leaders,
-- bodies, and the messages of two hosts, with their headers and commands. docs/formats.md has them, octet by octet.
--
--     tshark -X lua_script:dorydate.lua -r FILE
--
-- Link type USER0 is a network whose hosts have programs. In USER1, a raw network, texts have no form. USER2 is the wire
-- of a live network, as `./export --wire` writes it: frames over UDP, and messages with their lengths over TCP.

local hosts = Proto("dorydate", "Host and IMP (BBN Report 1822)")
local raw = Proto("dorydate_raw", "Host and IMP, raw network")
local wire = Proto("dorydate_wire", "Wire of a live network")

local TYPES = { [0] = "Message", [4] = "NOP", [5] = "RFNM", [7] = "Dead", [9] = "Incomplete" }
local WORDS = { [5] = "rfnm", [7] = "dead", [9] = "incomplete" } -- in printed lines
local NAMES = {
  [0] = "NOP", "RTS", "STR", "CLS", "ALL", "GVB", "RET", "INR", "INS", "ECO", "ERP", "ERR", "RST", "RRP",
}
local ERRORS = { "illegal code", "short", "erroneous", "no such socket", "link not connected" }

local f = {
  type = ProtoField.uint8("dorydate.type", "Type", base.DEC, TYPES, 0x0F),
  flags = ProtoField.uint8("dorydate.flags", "Flags, ignored", base.HEX, nil, 0xF0),
  host = ProtoField.uint8("dorydate.host", "Host", base.DEC, nil, 0xC0),
  imp = ProtoField.uint8("dorydate.imp", "IMP", base.DEC, nil, 0x3F),
  link = ProtoField.uint8("dorydate.link", "Link", base.DEC),
  ignored = ProtoField.uint8("dorydate.ignored", "Ignored", base.HEX),
  source = ProtoField.string("dorydate.source", "Source of the flow"),
  destination = ProtoField.string("dorydate.destination", "Destination of the flow"),
  line = ProtoField.string("dorydate.line", "As printed"),
  body = ProtoField.bytes("dorydate.body", "Body"),
  bits = ProtoField.uint16("dorydate.bits", "Bits of text", base.DEC),
  text = ProtoField.string("dorydate.text", "Text"),
  header = ProtoField.bytes("dorydate.header", "Header"),
  size = ProtoField.uint8("dorydate.size", "Byte size", base.DEC),
  count = ProtoField.uint16("dorydate.count", "Byte count", base.DEC),
  data = ProtoField.bytes("dorydate.data", "Data"),
  command = ProtoField.uint8("dorydate.command", "Command", base.DEC, NAMES),
  own = ProtoField.uint32("dorydate.own", "Own socket", base.DEC),
  foreign = ProtoField.uint32("dorydate.foreign", "Foreign socket", base.DEC),
  connection = ProtoField.uint8("dorydate.connection", "Link of the connection", base.DEC),
  bytes = ProtoField.uint8("dorydate.bytes", "Size of its bytes", base.DEC),
  messages = ProtoField.uint16("dorydate.messages", "Messages", base.DEC),
  allocation = ProtoField.uint32("dorydate.allocation", "Bits", base.DEC),
  message_share = ProtoField.uint8("dorydate.message_share", "128ths of the messages", base.DEC),
  bit_share = ProtoField.uint8("dorydate.bit_share", "128ths of the bits", base.DEC),
  octet = ProtoField.uint8("dorydate.octet", "Octet", base.DEC),
  kind = ProtoField.uint8("dorydate.kind", "Kind of error", base.DEC, ERRORS),
  quoted = ProtoField.bytes("dorydate.quoted", "Octets quoted"),
}
local w = {
  magic = ProtoField.string("dorydate.wire.magic", "H316"),
  sequence = ProtoField.uint32("dorydate.wire.sequence", "Sender's number", base.DEC),
  words = ProtoField.uint16("dorydate.wire.words", "Words of 16 bits", base.DEC),
  last = ProtoField.bool("dorydate.wire.last", "Last of its message", 16, nil, 0x0001),
  ready = ProtoField.bool("dorydate.wire.ready", "Sender is ready", 16, nil, 0x0002),
  length = ProtoField.uint16("dorydate.wire.length", "Length", base.DEC),
}

local function values_of(fields)
  local listed = {}
  for _, field in pairs(fields) do
    listed[#listed + 1] = field
  end
  return listed
end
hosts.fields = values_of(f)
wire.fields = values_of(w)

local malformed = ProtoExpert.new("dorydate.malformed", "Malformed", expert.group.MALFORMED, expert.severity.ERROR)
hosts.experts = { malformed }

local at_interface = Field.new("frame.interface_name")
local comments = Field.new("frame.comment")

-- The fields of each command after its code: the field, its octets, and the place of its words in `SAID`.
local FIELDS = {
  [0] = {},
  { { f.own, 4 }, { f.foreign, 4 }, { f.connection, 1 } },
  { { f.own, 4 }, { f.foreign, 4 }, { f.bytes, 1 } },
  { { f.own, 4 }, { f.foreign, 4 } },
  { { f.connection, 1 }, { f.messages, 2 }, { f.allocation, 4 } },
  { { f.connection, 1 }, { f.message_share, 1 }, { f.bit_share, 1 } },
  { { f.connection, 1 }, { f.messages, 2 }, { f.allocation, 4 } },
  { { f.connection, 1 } },
  { { f.connection, 1 } },
  { { f.octet, 1 } },
  { { f.octet, 1 } },
  { { f.kind, 1 }, { f.quoted, 10 } },
  {},
  {},
}

local function count(number, noun)
  return string.format(number == 1 and "%d %s" or "%d %ss", number, noun)
end

local function amounts(name)
  return function(link, messages, bits)
    return string.format("%s %s, %s on link %d", name, count(messages, "message"), count(bits, "bit"), link)
  end
end

local function on_link(name)
  return function(link)
    return string.format("%s on link %d", name, link)
  end
end

-- A request with what is wrong in it: its receive socket is odd, its send socket even, or another fault.
local function request(said, receive, send, fault)
  local faults = {}
  if receive % 2 == 1 then
    faults[1] = string.format("%d is a send socket", receive)
  end
  if send % 2 == 0 then
    faults[#faults + 1] = string.format("%d is a receive socket", send)
  end
  faults[#faults + 1] = fault
  return #faults > 0 and string.format("%s (erroneous: %s)", said, table.concat(faults, "; ")) or said
end

-- What a command says, from the values of its fields.
local SAID = {
  RTS = function(own, foreign, link)
    local fault = (link < 2 or link > 31) and string.format("link %d is never connected", link) or nil
    return request(string.format("RTS %d from %d on link %d", own, foreign, link), own, foreign, fault)
  end,
  STR = function(own, foreign, size)
    local fault = size == 0 and "bytes have a bit at least" or nil
    return request(string.format("STR %d to %d, bytes of %s", own, foreign, count(size, "bit")), foreign, own, fault)
  end,
  CLS = function(own, foreign)
    return string.format("CLS %d %d", own, foreign)
  end,
  ALL = amounts("ALL"),
  RET = amounts("RET"),
  GVB = function(link, messages, bits)
    return string.format("GVB %d/128 of the messages, %d/128 of the bits on link %d", messages, bits, link)
  end,
  INR = on_link("INR"),
  INS = on_link("INS"),
  ECO = function(octet)
    return string.format("ECO %d", octet)
  end,
  ERP = function(octet)
    return string.format("ERP %d", octet)
  end,
}

-- The octets of a command; nil where the code is none.
local function length_of(code)
  if not FIELDS[code] then
    return nil
  end
  local length = 1
  for _, field in ipairs(FIELDS[code]) do
    length = length + field[2]
  end
  return length
end

-- The places and lengths of a command's fields in its octets.
local function parts_of(range)
  local parts, place = {}, 1
  for _, field in ipairs(FIELDS[range(0, 1):uint()]) do
    parts[#parts + 1] = { field[1], range(place, field[2]) }
    place = place + field[2]
  end
  return parts
end

-- Whether all octets of a range are zero.
local function is_zero(range)
  return range:bytes():tohex():find("[^0]") == nil
end

-- A whole command in words. An ERR quotes a command in words where its octets are one, filled with zeros.
local function in_words(range)
  local code, parts, values = range(0, 1):uint(), parts_of(range), {}
  if NAMES[code] == "ERR" then
    local kind, quoted = parts[1][2]:uint(), parts[2][2]
    local length = length_of(quoted(0, 1):uint()) or 11
    local is_command = quoted(0, 1):uint() ~= 0 and length <= 10 and (length == 10 or is_zero(quoted(length)))
    local said = is_command and in_words(quoted(0, length)) or quoted:bytes():tohex()
    return string.format("ERR %d%s, quoting %s", kind, ERRORS[kind] and " (" .. ERRORS[kind] .. ")" or "", said)
  end
  for place, part in ipairs(parts) do
    values[place] = part[2]:uint()
  end
  local said = SAID[NAMES[code]]
  return said and said(table.unpack(values)) or NAMES[code]
end

-- Adds a whole command, and says what it says.
local function add_command(range, tree)
  local branch = tree:add(f.command, range(0, 1))
  branch:set_len(range:len())
  for _, part in ipairs(parts_of(range)) do
    branch:add(part[1], part[2])
  end
  return in_words(range)
end

-- Adds the commands of a control message, and says what they say.
local function add_commands(range, tree)
  local said, place = {}, 0
  while place < range:len() do
    local rest = range(place)
    local code = rest(0, 1):uint()
    local length = length_of(code)
    if not length then
      tree:add_proto_expert_info(malformed, string.format("code %d, which no command has", code))
      said[#said + 1] = string.format("code %d, which no command has", code)
      break
    elseif rest:len() < length then
      local cut = string.format("%s cut off after %s", NAMES[code], count(rest:len(), "octet"))
      tree:add_proto_expert_info(malformed, cut)
      said[#said + 1] = cut
      break
    end
    said[#said + 1] = add_command(rest(0, length), tree)
    place = place + length
  end
  return #said > 0 and table.concat(said, ", ") or "no commands"
end

-- The bits of the text in a body: all before the last bit 1; nil without one.
local function text_bits(body)
  for place = body:len() - 1, 0, -1 do
    local octet = body:get_index(place)
    if octet ~= 0 then
      local zeros = 0
      while octet % 2 == 0 do
        octet, zeros = octet / 2, zeros + 1
      end
      return 8 * place + 7 - zeros
    end
  end
  return nil
end

-- The octets of a text in hexadecimal digits, without the mark that may lie in the last.
local function text_octets(body, bits)
  if bits == 0 then
    return "-"
  end
  local text = body:subset(0, math.floor((bits + 7) / 8))
  if bits % 8 ~= 0 then
    local last = text:len() - 1
    local octet, unit = text:get_index(last), 2 ^ (8 - bits % 8)
    text:set_index(last, math.floor(octet - octet % unit))
  end
  return text:tohex()
end

local ESCAPED = { ["\t"] = "\\t", ["\n"] = "\\n", ["\r"] = "\\r", ["\\"] = "\\\\" }

local SHOWN = 60 -- characters, of which a quotation mark is one

-- Bits as text between quotation marks where they are text, otherwise in hexadecimal digits; of many only the first.
local function shown(octets, bits)
  local digits = text_octets(octets, bits)
  local text = bits % 8 == 0 and digits:gsub("..", function(octet)
    return string.char(tonumber(octet, 16))
  end) or nil
  if not text or text:find("[^\t\n\r -~]") then
    return #digits > SHOWN and digits:sub(1, SHOWN) .. ".." or digits
  end
  text = text:gsub("[\t\n\r\\]", ESCAPED)
  return #text + 2 > SHOWN and "“" .. text:sub(1, SHOWN - 1) .. ".." or "“" .. text .. "”"
end

-- Adds what a text of a host's program says, and says it in short.
local function add_said(range, bits, link, tree)
  local function wrong(why)
    tree:add_proto_expert_info(malformed, why)
    return "malformed: " .. why
  end
  if bits < 40 then
    return wrong(string.format("%s, fewer than the 40 of a header", count(bits, "bit")))
  end
  tree:add(f.header, range(0, 5))
  tree:add(f.size, range(1, 1))
  tree:add(f.count, range(2, 2))
  local size, number = range(1, 1):uint(), range(2, 2):uint()
  local bytes = string.format("%s of %s", count(number, "byte"), count(size, "bit"))
  if bits - 40 < size * number then
    return wrong(string.format("its header announces %s, and %s follow", bytes, count(bits - 40, "bit")))
  end
  if link ~= 0 then
    if size * number == 0 then
      return bytes
    end
    local data = range(5, math.floor((size * number + 7) / 8))
    tree:add(f.data, data)
    return string.format("%s: %s", bytes, shown(data:bytes(), size * number))
  end
  if size ~= 8 then
    return wrong(string.format("commands in bytes of %s, and they have to be of 8", count(size, "bit")))
  elseif number > 120 then
    return wrong(string.format("%d octets of commands, and there may be 120", number))
  elseif number == 0 then
    return "no commands"
  end
  return add_commands(range(5, number), tree)
end

-- A host that stops or starts: its packet has no octets, and its first comment says which.
local function add_turn(pinfo, tree)
  local comment = comments()
  local said = comment and tostring(comment.value) or ""
  tree:add(f.line, said):set_generated()
  pinfo.cols.info = said
end

-- Dissects a packet. `has_form` says whether texts are those of host programs, and `is_marked` whether a mark ends a text;
-- otherwise all words after the leader are text.
local function dissect(buffer, pinfo, root, has_form, is_marked)
  pinfo.cols.protocol = "1822"
  local tree = root:add(hosts, buffer())
  if buffer:len() == 0 then
    return add_turn(pinfo, tree)
  end
  if buffer:len() < 4 then
    tree:add_proto_expert_info(malformed, "a leader has four octets")
    return
  end
  local is_from_host = pinfo.p2p_dir == 0
  local kind, link = buffer(0, 1):uint() % 16, buffer(2, 1):uint()
  for place, fields in ipairs({ { f.flags, f.type }, { f.host, f.imp }, { f.link }, { f.ignored } }) do
    for _, field in ipairs(fields) do
      tree:add(field, buffer(place - 1, 1))
    end
  end
  local address = buffer(1, 1):uint()
  local other = string.format("%d/%d", math.floor(address / 64), address % 64)
  local own = at_interface() and tostring(at_interface().value) or "?"
  local is_back = kind == 0 and not is_from_host -- a message from the IMP: its address is the source's
  local source, destination = is_back and other or own, is_back and own or other
  pinfo.cols.src = is_from_host and own or "IMP of " .. own
  pinfo.cols.dst = is_from_host and "IMP of " .. own or own
  tree:add(f.source, source):set_generated()
  tree:add(f.destination, destination):set_generated()
  local flow = string.format("%s %s %d", source, destination, link)
  if kind ~= 0 then
    if WORDS[kind] then
      tree:add(f.line, string.format("answer %s %s", WORDS[kind], flow)):set_generated()
    end
    pinfo.cols.info = string.format("%s, %s to %s on link %d", TYPES[kind] or "unknown type", source, destination, link)
    return
  end
  local body = buffer(4):bytes()
  local bits = is_marked and text_bits(body) or not is_marked and 8 * body:len() or nil
  local branch = tree:add(f.body, buffer(4))
  if not bits then
    branch:add_proto_expert_info(malformed, "no bit 1 marks the end of the text")
    return
  end
  local octets = text_octets(body, bits)
  branch:add(f.bits, bits):set_generated()
  branch:add(f.text, octets):set_generated()
  tree:add(f.line, string.format("%s %s %d %s", is_from_host and "out" or "in", flow, bits, octets)):set_generated()
  local said = has_form and add_said(buffer(4), bits, link, branch) or count(bits, "bit")
  pinfo.cols.info = string.format("%s to %s on link %d: %s", source, destination, link, said)
end

function hosts.dissector(buffer, pinfo, root)
  dissect(buffer, pinfo, root, true, true)
end

function raw.dissector(buffer, pinfo, root)
  dissect(buffer, pinfo, root, false, true)
end

-- A frame, or a message with its length. What a host sends has no mark.
function wire.dissector(buffer, pinfo, root)
  local is_from_host = pinfo.p2p_dir == 0
  local is_frame = buffer:len() >= 12 and buffer(0, 4):string() == "H316"
  local head = is_frame and 12 or 2
  if buffer:len() < head then
    return
  end
  local tree = root:add(wire, buffer(0, head))
  local has_message = buffer:len() > head
  if is_frame then
    tree:add(w.magic, buffer(0, 4))
    tree:add(w.sequence, buffer(4, 4))
    tree:add(w.words, buffer(8, 2))
    tree:add(w.last, buffer(10, 2))
    tree:add(w.ready, buffer(10, 2))
    local flags = buffer(11, 1):uint()
    pinfo.cols.protocol = "1822 wire"
    pinfo.cols.info = flags >= 2 and "ready" or "not ready"
    if has_message and flags % 2 == 0 then
      pinfo.cols.info = "a part of a message"
      has_message = false
    end
  else
    tree:add(w.length, buffer(0, 2))
    pinfo.cols.info = "is the IMP there?"
  end
  if has_message then
    dissect(buffer(head):tvb(), pinfo, root, true, not is_from_host)
  end
end

local links = DissectorTable.get("wtap_encap")
links:add(wtap.USER0, hosts)
links:add(wtap.USER1, raw)
links:add(wtap.USER2, wire)
