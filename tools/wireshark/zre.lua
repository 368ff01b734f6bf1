-- Dissectors for Wireshark and tshark: ZMTP 3 over TCP with the mechanism NULL (RFC 23), the messages of ZRE in it
-- (RFC 36, version 2), and beacons of ZRE over UDP.
--
--     tshark -X lua_script:tools/wireshark/zre.lua -r FILE.pcap -Y zre
--
-- or put this file into the folder of personal Lua plugins. Connections are recognised by the greeting that begins a
-- stream. A stream whose begin isn't in the recording stays plain TCP, unless it is decoded as `zmtp3` by hand.
--
-- It keeps no state: a greeting begins with FF, which no frame does, and a message is dissected once all its frames are
-- there. So it needs no first pass.

local zmtp = Proto("zmtp3", "ZMTP 3")
local zre = Proto("zre", "ZeroMQ Realtime Exchange Protocol")
local beacon = Proto("zrebeacon", "ZRE beacon")

local GREETING = 64
local COMMANDS = { "HELLO", "WHISPER", "SHOUT", "JOIN", "LEAVE", "PING", "PING-OK" }
local FLAGS = {
    [0] = "last frame", [1] = "frame, more follow", [2] = "last frame, long", [3] = "frame, more follow, long",
    [4] = "command", [6] = "command, long",
}

local z = {
    major = ProtoField.uint8("zmtp3.major", "Major version"),
    minor = ProtoField.uint8("zmtp3.minor", "Minor version"),
    mechanism = ProtoField.stringz("zmtp3.mechanism", "Mechanism"),
    flags = ProtoField.uint8("zmtp3.flags", "Flags", base.HEX, FLAGS),
    size = ProtoField.uint64("zmtp3.size", "Size"),
    command = ProtoField.string("zmtp3.command", "Command"),
    property = ProtoField.string("zmtp3.property", "Property"),
    value = ProtoField.bytes("zmtp3.value", "Value"),
    body = ProtoField.bytes("zmtp3.body", "Body"),
    frames = ProtoField.uint32("zmtp3.frames", "Frames of the message"),
}
zmtp.fields = z
local e_zmtp = ProtoExpert.new("zmtp3.fault", "no ZMTP", expert.group.MALFORMED, expert.severity.ERROR)
zmtp.experts = { e_zmtp }

local m = {
    command = ProtoField.uint8("zre.command", "Command", base.DEC, COMMANDS),
    version = ProtoField.uint8("zre.version", "Version"),
    sequence = ProtoField.uint16("zre.sequence", "Sequence"),
    endpoint = ProtoField.string("zre.endpoint", "Endpoint"),
    group = ProtoField.string("zre.group", "Group"),
    status = ProtoField.uint8("zre.status", "Status"),
    name = ProtoField.string("zre.name", "Name"),
    header = ProtoField.string("zre.header", "Header"),
    content = ProtoField.bytes("zre.content", "Content"),
}
zre.fields = m
local e_zre = ProtoExpert.new("zre.bad", "no message of ZRE", expert.group.MALFORMED, expert.severity.WARN)
zre.experts = { e_zre }

local b = {
    id = ProtoField.bytes("zrebeacon.id", "Identity", base.NONE),
    port = ProtoField.uint16("zrebeacon.port", "Port of the mailbox"),
}
beacon.fields = b

-- The flags, the head's size and the body's size of the frame at this place; nothing where its head isn't whole.
local function frame_at(tvb, at)
    if at >= tvb:len() then return nil end
    local flags = tvb(at, 1):uint()
    if not FLAGS[flags] then return flags, 0, 0 end
    local is_long = flags == 2 or flags == 3 or flags == 6
    local head = is_long and 9 or 2
    if at + head > tvb:len() then return nil end
    local size = is_long and tvb(at + 1, 8):uint64():tonumber() or tvb(at + 1, 1):uint()
    return flags, head, size
end

-- Reads fields of a first frame: each gives its value and the place behind it, or nothing where it doesn't fit.
local function string_at(tvb, at, size)
    if at + size > tvb:len() then return nil end
    local length = size == 1 and tvb(at, 1):uint() or tvb(at, 4):uint()
    if at + size + length > tvb:len() then return nil end
    return tvb(at + size, length), at + size + length
end

local function text_of(range)
    return range:len() == 0 and "" or range:string()
end

local function add_string(tree, field, tvb, at, size)
    local range, after = string_at(tvb, at, size)
    if not range then return nil end
    tree:add(field, tvb(at, after - at), text_of(range))
    return after, text_of(range)
end

local function add_status(tree, tvb, at)
    if not at or at >= tvb:len() then return nil end
    tree:add(m.status, tvb(at, 1))
    return at + 1
end

local function add_headers(tree, tvb, at)
    if not at or at + 4 > tvb:len() then return nil end
    local count = tvb(at, 4):uint()
    at = at + 4
    for _ = 1, count do
        local name, middle = string_at(tvb, at, 1)
        if not name then return nil end
        local value, after = string_at(tvb, middle, 4)
        if not value then return nil end
        tree:add(m.header, tvb(at, after - at), text_of(name) .. "=" .. text_of(value))
        at = after
    end
    return at
end

local function add_hello(tree, tvb, at)
    local endpoint, name
    at, endpoint = add_string(tree, m.endpoint, tvb, at, 1)
    if not at or at + 4 > tvb:len() then return nil end
    local count = tvb(at, 4):uint()
    at = at + 4
    for _ = 1, count do
        at = add_string(tree, m.group, tvb, at, 4)
        if not at then return nil end
    end
    at = add_status(tree, tvb, at)
    if not at then return nil end
    at, name = add_string(tree, m.name, tvb, at, 1)
    return add_headers(tree, tvb, at), string.format(" %s at %s", name or "", endpoint)
end

-- The fields of a first frame by its command: the place behind them, and what the list of packets shows of them.
local function add_fields(tree, tvb, command)
    if command == 1 then return add_hello(tree, tvb, 6) end
    if command == 3 or command == 4 or command == 5 then
        local at, group = add_string(tree, m.group, tvb, 6, 1)
        if command ~= 3 then at = add_status(tree, tvb, at) end
        return at, group and " " .. group or ""
    end
    return command <= 7 and 6 or tvb:len(), ""
end

-- A message of ZRE of these frames, each a tvb; the answer is what the list of packets shows of it, or nothing where it
-- isn't one.
local function dissect_message(frames, tree)
    local first = frames[1]
    if first:len() < 2 or first(0, 2):uint() ~= 0xAAA1 then return nil end
    local part = tree:add(zre, first(0, first:len()))
    if first:len() < 6 or first(3, 1):uint() ~= 2 then
        part:add_proto_expert_info(e_zre, first:len() < 6 and "Short" or "Version")
        return "no message of ZRE"
    end
    local command = first(2, 1):uint()
    part:add(m.command, first(2, 1))
    part:add(m.version, first(3, 1))
    part:add(m.sequence, first(4, 2))
    local after, about = add_fields(part, first, command)
    local takes_more = command == 2 or command == 3 or command == 0 or command > 7
    if not after then
        part:add_proto_expert_info(e_zre, "Short")
    elseif after < first:len() then
        part:add_proto_expert_info(e_zre, "Trailing")
    elseif #frames > 1 and not takes_more then
        part:add_proto_expert_info(e_zre, "ExtraFrames")
    end
    for number = 2, #frames do
        local frame = frames[number]
        if frame:len() > 0 then part:add(m.content, frame(0, frame:len())) end
    end
    local name = COMMANDS[command] or "OTHER " .. command
    part:append_text(string.format(", %s %d%s", name, first(4, 2):uint(), about or ""))
    return string.format("%s %d%s", name, first(4, 2):uint(), about or "")
end

local function add_properties(tree, tvb, at)
    while at < tvb:len() do
        local name, middle = string_at(tvb, at, 1)
        if not name then return end
        local value, after = string_at(tvb, middle, 4)
        if not value then return end
        local part = tree:add(z.property, name, text_of(name))
        if value:len() > 0 then part:add(z.value, value) end
        at = after
    end
end

local function dissect_greeting(tvb, tree)
    local part = tree:add(zmtp, tvb(0, GREETING))
    part:add(z.major, tvb(10, 1))
    part:add(z.minor, tvb(11, 1))
    part:add(z.mechanism, tvb(12, 20))
    part:append_text(", greeting")
    return string.format("greeting %d.%d", tvb(10, 1):uint(), tvb(11, 1):uint())
end

local function dissect_command(tvb, at, head, size, tree)
    local part = tree:add(zmtp, tvb(at, head + size))
    part:add(z.flags, tvb(at, 1))
    if size == 0 or tvb(at + head, 1):uint() == 0 or tvb(at + head, 1):uint() >= size then
        part:add_proto_expert_info(e_zmtp, "CommandName")
        return "bad command"
    end
    local length = tvb(at + head, 1):uint()
    local name = tvb(at + head + 1, length):string()
    part:add(z.command, tvb(at + head + 1, length))
    part:append_text(", command " .. name)
    local body = tvb(at + head, size):tvb()
    if name == "READY" then add_properties(part, body, 1 + length) end
    return name
end

-- What begins at this place: how many octets it has, and what the list of packets shows of it; nothing where it isn't
-- whole yet.
local function dissect_item(tvb, at, tree)
    if tvb(at, 1):uint() == 0xFF then
        if at + GREETING > tvb:len() then return nil end
        return GREETING, dissect_greeting(tvb(at, GREETING):tvb(), tree)
    end
    local begin, frames, commands, spans = at, {}, {}, {}
    repeat
        local flags, head, size = frame_at(tvb, at)
        if not flags then return nil end
        if head == 0 then
            tree:add(zmtp, tvb(at)):add_proto_expert_info(e_zmtp, "Flags")
            return tvb:len() - begin, "no ZMTP"
        end
        if at + head + size > tvb:len() then return nil end
        if flags >= 4 then
            if #frames == 0 then return head + size, dissect_command(tvb, at, head, size, tree) end
            commands[#commands + 1] = { at, head, size }
        else
            frames[#frames + 1] = tvb(at + head, size):tvb()
            spans[#spans + 1] = { at, head, size, flags }
        end
        at = at + head + size
    until flags == 0 or flags == 2
    local part = tree:add(zmtp, tvb(begin, at - begin))
    part:append_text(string.format(", message of %d frames", #frames))
    part:add(z.frames, #frames):set_generated()
    for _, span in ipairs(spans) do
        part:add(z.flags, tvb(span[1], 1))
        part:add(z.size, tvb(span[1] + 1, span[2] - 1), UInt64(span[3]))
        if span[3] > 0 then part:add(z.body, tvb(span[1] + span[2], span[3])) end
    end
    for _, span in ipairs(commands) do dissect_command(tvb, span[1], span[2], span[3], part) end
    return at - begin, dissect_message(frames, tree) or string.format("message of %d frames", #frames)
end

function zmtp.dissector(tvb, pinfo, tree)
    local at, shown, is_zre = 0, {}, false
    while at < tvb:len() do
        local size, about = dissect_item(tvb, at, tree)
        if not size then
            pinfo.desegment_offset = at
            pinfo.desegment_len = DESEGMENT_ONE_MORE_SEGMENT
            break
        end
        at = at + size
        shown[#shown + 1] = about
        local word = about:match("^[A-Z-]+ %d")
        is_zre = is_zre or word ~= nil
    end
    if #shown > 0 then
        pinfo.cols.protocol = is_zre and "ZRE" or "ZMTP"
        pinfo.cols.info = table.concat(shown, "; ", 1, math.min(#shown, 8)) .. (#shown > 8 and "; .." or "")
    end
    return tvb:len()
end

-- A stream that begins with a greeting, even if only its first ten octets are there yet.
local function is_zmtp(tvb, pinfo, tree)
    if tvb:len() < 10 or tvb(0, 1):uint() ~= 0xFF or tvb(9, 1):uint() ~= 0x7F then return false end
    pinfo.conversation = zmtp
    zmtp.dissector(tvb, pinfo, tree)
    return true
end
zmtp:register_heuristic("tcp", is_zmtp)
DissectorTable.get("tcp.port"):add_for_decode_as(zmtp)

local function is_beacon(tvb, pinfo, tree)
    if tvb:len() ~= 22 or tvb(0, 4):uint() ~= 0x5A524501 then return false end
    beacon.dissector(tvb, pinfo, tree)
    return true
end

function beacon.dissector(tvb, pinfo, tree)
    if tvb:len() ~= 22 or tvb(0, 4):uint() ~= 0x5A524501 then return 0 end
    local port, id = tvb(20, 2):uint(), tostring(tvb(4, 16):bytes())
    local part = tree:add(beacon, tvb(0, 22))
    part:add(b.id, tvb(4, 16))
    part:add(b.port, tvb(20, 2))
    pinfo.cols.protocol = "ZRE"
    pinfo.cols.info = "beacon " .. id .. (port == 0 and " leaves" or " mailbox " .. port)
    return 22
end
beacon:register_heuristic("udp", is_beacon)
