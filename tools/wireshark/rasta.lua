-- Wireshark dissector for the datagrams of a RaSTA connection with an SCI session (layouts: docs/protocol.md).
--
--     wireshark -X lua_script:tools/wireshark/rasta.lua night.pcap
--     tshark -X lua_script:tools/wireshark/rasta.lua -o rasta.code:16 -d udp.port==5000,rasta -V -r night.pcap
--
-- Or copy it to the folder of personal Lua plugins (Help, About, Folders). Preferences: `rasta.code`, the octets of safety code (0, 8 or
-- 16); `rasta.iv`, the initial value of the safety code; `rasta.test`, whether to test it; and `rasta.ports`, the UDP ports. On other ports a
-- datagram is recognised by its two lengths, its reserve, its type, and the size of its body. A port with another Decode As keeps that.
--
-- The fields of a datagram are decoded from it only. Five more come from the datagrams before it: which one it repeats (`rasta.repeat_of`), which one
-- had its number and other octets (`rasta.differs`), how many redundancy numbers are missing before it (`rasta.gap`), the age of the timestamp that it
-- confirms (`rasta.age`), and how long its sender has waited for a confirmation (`rasta.waits`), both in milliseconds, as `rasta follow` defines
-- them. They are found at the first visit of a packet and kept by its number, so both passes of tshark show the same. They cover all channels together and
-- 32 numbers back; for sums and single channels use `rasta follow`. A fault has the name that `rasta show` prints, as an expert info and in the field
-- `rasta.fault`; the octets after it are shown and not decoded. A PDU with a fault has none of the five, and a repeat no expert info.
-- tests/compare/wireshark compares with `rasta show` and `rasta follow`; it was run with Wireshark 4.0.

local rasta = Proto("rasta", "Rail Safe Transport Application")

rasta.prefs.code = Pref.enum("Octets of safety code", 8,
    "Length of the safety code at the end of a safety PDU, in octets; it is the same for both ends.",
    { { 1, "0", 0 }, { 2, "8", 8 }, { 3, "16", 16 } }, false)
rasta.prefs.iv = Pref.string("Initial value", "0123456789abcdeffedcba9876543210",
    "Initial value of the safety code, 32 hexadecimal digits, as in the settings files of both ends.")
rasta.prefs.test = Pref.bool("Test the safety code", true, "Whether to test the safety code of each PDU; this takes some microseconds.")

local DEFAULT_PORTS = "46101-46102,46201-46202"
rasta.prefs.ports = Pref.range("UDP ports", DEFAULT_PORTS,
    "UDP ports of RaSTA. No port is registered; these are the ports of examples/.", 65535)

-- Names and numbers.

local TYPES = {
    [6200] = "ConnReq", [6201] = "ConnResp", [6212] = "RetrReq", [6213] = "RetrResp",
    [6216] = "DiscReq", [6220] = "HB", [6240] = "Data", [6241] = "RetrData",
}
local LONG_TYPES = {
    [6200] = "ConnReq, connection request", [6201] = "ConnResp, connection response", [6212] = "RetrReq, retransmission request",
    [6213] = "RetrResp, retransmission response", [6216] = "DiscReq, disconnection request", [6220] = "HB, heartbeat", [6240] = "Data",
    [6241] = "RetrData, retransmitted data",
}
local REASONS = {
    [0] = "closed by the user", [1] = "unexpected PDU", [2] = "sequence error while connecting", [3] = "timeout",
    [4] = "service not allowed", [5] = "version", [6] = "retransmission impossible", [7] = "protocol error",
}
local DETAILS = {
    [4] = { "version differs", "telegram out of order", "telegram not well formed or not of this pair" },
    [7] = { "limit of PDUs", "unit", "confirmed sequence number", "confirmed timestamp" },
}
local TELEGRAMS = {
    [0x0021] = "Cmd_Initialisation_Request", [0x0022] = "Msg_Start_Initialisation", [0x0023] = "Msg_Initialisation_Completed",
    [0x0024] = "Cmd_PDI_Version_Check", [0x0025] = "Msg_PDI_Version_Check",
}
local RESULTS = { [1] = "versions differ", [2] = "versions equal" }
local NOT_TESTED, RIGHT, WRONG = 0, 1, 2
local STATUSES = { [NOT_TESTED] = "not tested", [RIGHT] = "right", [WRONG] = "wrong" }

local RED_HEADER, RED_MAX = 8, 1258
local SAFE_HEADER, SAFE_FRONT_MAX = 28, 1234
local OPENING_BODY, LEAVING_BODY, WINDOW_MAX, UNIT_MIN, UNIT_MAX = 14, 4, 32, 45, 1206
local UNIT_MESSAGES, MESSAGE_MIN, MESSAGE_MAX, NAME, CHECKSUM_MAX = 3, 43, 400, 20, 16

-- Fields.

local f = {
    fault = ProtoField.string("rasta.fault", "Fault", base.NONE, "The fault as `rasta show` names it"),
    red = ProtoField.none("rasta.red", "Redundancy PDU", "PDU of the redundancy layer"),
    red_length = ProtoField.uint16("rasta.red.length", "Length", base.DEC, nil, nil, "Octets of the whole redundancy PDU"),
    red_reserve = ProtoField.uint16("rasta.red.reserve", "Reserve", base.HEX, nil, nil, "Reserve, zero"),
    red_seq = ProtoField.uint32("rasta.red.seq", "Sequence number", base.DEC, nil, nil, "Sequence number of the redundancy layer"),
    octets = ProtoField.bytes("rasta.octets", "Octets not read", base.NONE, "The octets after a fault"),

    safe = ProtoField.none("rasta.safe", "Safety PDU", "PDU of the safety and retransmission layer"),
    length = ProtoField.uint16("rasta.length", "Message length", base.DEC, nil, nil, "Octets of the whole safety PDU with its safety code"),
    kind = ProtoField.uint16("rasta.type", "Message type", base.DEC, LONG_TYPES, nil, "Message type of the safety PDU"),
    receiver = ProtoField.uint32("rasta.receiver", "Receiver identification", base.DEC, nil, nil, "Identification of the receiver"),
    sender = ProtoField.uint32("rasta.sender", "Sender identification", base.DEC, nil, nil, "Identification of the sender"),
    sn = ProtoField.uint32("rasta.sn", "Sequence number (SN)", base.DEC, nil, nil, "Sequence number of the safety PDU"),
    cs = ProtoField.uint32("rasta.cs", "Confirmed sequence number (CS)", base.DEC, nil, nil,
        "Sequence number of the last PDU that its sender accepted from the peer"),
    ts = ProtoField.uint32("rasta.ts", "Timestamp (TS)", base.DEC, nil, nil, "Milliseconds of the sender's clock, modulo 2^32"),
    cts = ProtoField.uint32("rasta.cts", "Confirmed timestamp (CTS)", base.DEC, nil, nil,
        "Timestamp of the last PDU that its sender accepted from the peer, in milliseconds of the receiver's clock"),
    version = ProtoField.string("rasta.version", "Protocol version", base.NONE, "Version of RaSTA, four digits"),
    window = ProtoField.uint16("rasta.nsendmax", "N_sendmax", base.DEC, nil, nil, "How many units the peer may leave unconfirmed, 1 to 32"),
    reserve = ProtoField.bytes("rasta.reserve", "Reserve", base.NONE, "Reserve of a connection request or response, zero"),
    detail = ProtoField.uint16("rasta.detail", "Detailed information", base.DEC, nil, nil, "Detailed information on the reason"),
    reason = ProtoField.uint16("rasta.reason", "Reason", base.DEC, REASONS, nil, "Reason of the disconnection"),
    code = ProtoField.bytes("rasta.code", "Safety code", base.NONE, "First octets of MD4 over the safety PDU"),
    code_status = ProtoField.uint8("rasta.code.status", "Safety code status", base.DEC, STATUSES, nil,
        "Whether the safety code is that of the octets before it"),

    unit = ProtoField.none("rasta.unit", "Unit", "User data of a Data or RetrData: one to three messages"),
    unit_messages = ProtoField.uint8("rasta.unit.messages", "Messages", base.DEC, nil, nil, "How many messages the unit has"),
    message = ProtoField.none("rasta.message", "Message", "A message of the unit: a telegram"),
    message_length = ProtoField.uint16("rasta.message.length", "Length", base.DEC, nil, nil, "Octets of the message, 43 to 400"),

    protocol = ProtoField.uint8("rasta.telegram.protocol", "Protocol type", base.HEX, nil, nil, "Protocol type of the telegram"),
    telegram = ProtoField.uint16("rasta.telegram.type", "Message type", base.HEX, TELEGRAMS, nil, "Message type of the telegram"),
    from = ProtoField.string("rasta.telegram.sender", "Sender", base.NONE, "Name of the sender, without its filling"),
    from_octets = ProtoField.bytes("rasta.telegram.sender.octets", "Sender, no name", base.NONE,
        "Octets in the place of the sender that are not a name"),
    to = ProtoField.string("rasta.telegram.receiver", "Receiver", base.NONE, "Name of the receiver, without its filling"),
    to_octets = ProtoField.bytes("rasta.telegram.receiver.octets", "Receiver, no name", base.NONE,
        "Octets in the place of the receiver that are not a name"),
    payload = ProtoField.bytes("rasta.telegram.payload", "Payload", base.NONE, "Payload of the telegram"),

    pdi_version = ProtoField.uint8("rasta.pdi.version", "PDI version", base.DEC, nil, nil, "PDI version of the sender"),
    pdi_result = ProtoField.uint8("rasta.pdi.result", "Result", base.DEC, RESULTS, nil, "Result of the version check"),
    pdi_size = ProtoField.uint8("rasta.pdi.checksum_length", "Checksum length", base.DEC, nil, nil, "Octets of the checksum, 0 to 16"),
    pdi_checksum = ProtoField.bytes("rasta.pdi.checksum", "Checksum", base.NONE, "Checksum of the field element's data"),

    repeat_of = ProtoField.framenum("rasta.repeat_of", "Repeat of", base.NONE, frametype.NONE, nil, "First packet with the same octets, on any channel"),
    differs = ProtoField.framenum("rasta.differs", "Differs from", base.NONE, frametype.NONE, nil,
        "Earlier packet of its sender with the same redundancy number and other octets"),
    gap = ProtoField.uint32("rasta.gap", "Missing before it", base.DEC, nil, nil, "Redundancy numbers of its sender that came on no channel so far"),
    age = ProtoField.uint32("rasta.age", "Age of the confirmed timestamp", base.DEC, nil, nil,
        "Newest timestamp of the receiver minus the confirmed one, in milliseconds"),
    waits = ProtoField.uint32("rasta.waits", "Waits for a confirmation", base.DEC, nil, nil,
        "Its timestamp minus its sender's timestamp that was last confirmed to the sender, in milliseconds; at T_max it disconnects"),
}
rasta.fields = f

-- Expert infos: the faults that `rasta show` prints for the parts of a datagram, and openings, retransmission requests and disconnects.

local FAULTS = {
    red = { [1] = "Short", [2] = "Length", [3] = "Reserve" },
    safe = { [1] = "Short", [2] = "Length", [3] = "Code", [4] = "Type", [5] = "Body" },
    unit = { [2] = "Length", [3] = "TooMany" },                           -- 1 is Empty: a Data without a unit has the fault Body
    message = { [3] = "Name" },                                           -- 1 and 2 are lengths that a unit cannot contain
}
local e = {
    cut = ProtoExpert.new("rasta.cut", "Cut by the capture", expert.group.UNDECODED, expert.severity.NOTE),
    opening = ProtoExpert.new("rasta.opening", "Connection opening", expert.group.SEQUENCE, expert.severity.CHAT),
    again = ProtoExpert.new("rasta.again", "Retransmission", expert.group.SEQUENCE, expert.severity.NOTE),
    closed = ProtoExpert.new("rasta.closed", "Connection closed by its user", expert.group.SEQUENCE, expert.severity.CHAT),
    left = ProtoExpert.new("rasta.left", "Connection left", expert.group.SEQUENCE, expert.severity.WARN),
    differs = ProtoExpert.new("rasta.differs.seen", "Redundancy number with other octets", expert.group.SEQUENCE, expert.severity.WARN),
    iv = ProtoExpert.new("rasta.iv.form", "Preference rasta.iv is not 32 hexadecimal digits", expert.group.UNDECODED, expert.severity.WARN),
    gap = ProtoExpert.new("rasta.gap.seen", "Redundancy numbers missing", expert.group.SEQUENCE, expert.severity.WARN),
    pdi = ProtoExpert.new("rasta.pdi.form", "Payload not of the form of its message type", expert.group.PROTOCOL, expert.severity.WARN),
}
local experts, fault_experts = {}, {}
for _, info in pairs(e) do
    experts[#experts + 1] = info
end
for part, names in pairs(FAULTS) do
    fault_experts[part] = {}
    for number, name in pairs(names) do
        local label, text = "rasta." .. part .. ".fault." .. name:lower(), string.format("%s fault %d %s", part, number, name)
        local info = ProtoExpert.new(label, text, expert.group.MALFORMED, expert.severity.ERROR)
        fault_experts[part][number] = info
        experts[#experts + 1] = info
    end
end
rasta.experts = experts

-- Decoding. A part has `size` octets of the datagram from `at` on; the capture may have fewer, and missing ones are never read.

-- returns how many octets of this part were captured
local function held(tvb, at, size)
    return math.max(0, math.min(size, tvb:captured_len() - at))
end

-- adds a field of `size` octets and returns its number, or nil if they were not captured
local function number(tree, field, tvb, at, size)
    if held(tvb, at, size) < size then
        return nil
    end
    local item = tree:add_le(field, tvb(at, size))
    return tvb(at, size):le_uint(), item
end

-- adds those of these octets that were captured, if any
local function bytes(tree, field, tvb, at, size)
    local some = held(tvb, at, size)
    if some > 0 then
        return tree:add(field, tvb(at, some))
    end
end

-- adds a subtree for a part
local function subtree(tree, field, tvb, at, size)
    local some = held(tvb, at, size)
    if some > 0 then
        return tree:add(field, tvb(at, some))
    end
    return tree:add(field)
end

-- whether the PDU that is being shown repeats one; then it has no expert info, so that counts of them are of PDUs and not of datagrams
local is_repeat = false

-- adds an expert info, unless the PDU is a repeat
local function tell(item, info, text)
    if not is_repeat then
        item:add_proto_expert_info(info, text)
    end
end

-- shows a fault in the tree and in the list of packets; `which` is its part, with the message's number if it is in a message
local function fault(tree, pinfo, part, code, which, why)
    local text = string.format("%s fault %d %s", which, code, FAULTS[part][code])
    tell(tree, fault_experts[part][code], text .. ": " .. why)
    tree:add(f.fault, text):set_generated()
    pinfo.cols.info:append(" [" .. text .. "]")
end

-- marks the rest of a part whose octets the capture does not have
local function cut(tree, pinfo)
    tree:add_proto_expert_info(e.cut, "Cut by the capture: the rest is not read (capture with a greater snapshot length)")
    pinfo.cols.info:append(" [cut by the capture]")
end

-- returns the name in a place of 20 octets, or nil: 1 to 20 characters 21 to 7e other than the filling, and only filling after them
local function name_in(tvb, at)
    local octets = tvb(at, NAME):bytes()
    local text, filled = {}, false
    for place = 0, NAME - 1 do
        local octet = octets:get_index(place)
        if octet == 0x5f then
            filled = true
        elseif filled or octet < 0x21 or octet > 0x7e then
            return nil
        else
            text[#text + 1] = string.char(octet)
        end
    end
    return #text > 0 and table.concat(text) or nil
end

-- shows a name, or its octets if they are not a name
local function name(tree, field, field_octets, tvb, at)
    local text = name_in(tvb, at)
    if text then
        tree:add(field, tvb(at, NAME), text)
    else
        tree:add(field_octets, tvb(at, NAME))
    end
    return text
end

-- shows the payload of a telegram of the establishment; returns false if it has another form
local function establishment(tree, kind, tvb, at, size)
    if kind == 0x0024 then
        if size ~= 1 then
            return false
        end
        number(tree, f.pdi_version, tvb, at, 1)
        return true
    elseif kind ~= 0x0025 then
        return size == 0
    elseif size < 3 then
        return false
    end
    local result = number(tree, f.pdi_result, tvb, at, 1)
    number(tree, f.pdi_version, tvb, at + 1, 1)
    local checksum = number(tree, f.pdi_size, tvb, at + 2, 1)
    bytes(tree, f.pdi_checksum, tvb, at + 3, size - 3)
    return RESULTS[result] ~= nil and checksum == size - 3 and checksum <= CHECKSUM_MAX
end

-- shows a completely captured message, the k-th of its unit: a telegram
local function telegram(tree, pinfo, tvb, at, size, k)
    tree:add(f.protocol, tvb(at, 1))
    local kind, kind_item = number(tree, f.telegram, tvb, at + 1, 2)
    if not TELEGRAMS[kind] then
        kind_item:set_text(string.format("Message type: command or status (0x%04x)", kind))
    end
    local from = name(tree, f.from, f.from_octets, tvb, at + 3)
    local to = name(tree, f.to, f.to_octets, tvb, at + 3 + NAME)
    local payload = bytes(tree, f.payload, tvb, at + MESSAGE_MIN, size - MESSAGE_MIN)
    if not (from and to) then
        tree:set_text(string.format("Message %d: not a telegram", k))
        fault(tree, pinfo, "message", 3, "message " .. k, (from and "the receiver" or "the sender") .. " is not a name with its filling")
        return
    end
    local what = TELEGRAMS[kind] or string.format("type %04x", kind)
    tree:set_text(string.format("Message %d: %s from %s to %s, payload of %d octets", k, what, from, to, size - MESSAGE_MIN))
    pinfo.cols.info:append(string.format(" | %s %s → %s", what, from, to))
    if TELEGRAMS[kind] then
        local inner = payload or tree
        if not establishment(inner, kind, tvb, at + MESSAGE_MIN, size - MESSAGE_MIN) then
            tell(kind_item, e.pdi, "The payload does not have the form of " .. what)
        end
    elseif payload then
        pinfo.cols.info:append(" " .. tostring(tvb(at + MESSAGE_MIN, size - MESSAGE_MIN):bytes()):lower())
    end
end

-- returns the places of a unit's messages (from their lengths on), or nil, the number of its fault, the reason, and the place
local function messages_of(tvb, at, size)
    local found, place, behind = {}, at, at + size
    while place < behind do
        if #found == UNIT_MESSAGES then
            return nil, 3, string.format("three messages, and %d octets after them", behind - place)
        elseif behind - place < 2 then
            return nil, 2, "one octet instead of a length"
        end
        local length = tvb(place, 2):le_uint()
        if length < MESSAGE_MIN or length > MESSAGE_MAX then
            return nil, 2, string.format("message %d has a length of %d, not %d to %d", #found + 1, length, MESSAGE_MIN, MESSAGE_MAX)
        elseif place + 2 + length > behind then
            return nil, 2, string.format("message %d has a length of %d, but only %d octets follow", #found + 1, length, behind - place - 2)
        end
        found[#found + 1] = { at = place, size = length }
        place = place + 2 + length
    end
    return found
end

-- shows the body of a Data or RetrData
local function unit(tree, pinfo, tvb, at, size)
    local inner = subtree(tree, f.unit, tvb, at, size)
    if held(tvb, at, size) < size then
        bytes(inner, f.octets, tvb, at, size)
        return cut(inner, pinfo)
    end
    local found, code, why = messages_of(tvb, at, size)
    if not found then
        bytes(inner, f.octets, tvb, at, size)
        return fault(inner, pinfo, "unit", code, "unit", why)
    end
    inner:append_text(#found == 1 and ", one message" or string.format(", %d messages", #found))
    inner:add(f.unit_messages, #found):set_generated()
    for k, message in ipairs(found) do
        local one = inner:add(f.message, tvb(message.at, 2 + message.size))
        number(one, f.message_length, tvb, message.at, 2)
        telegram(one, pinfo, tvb, message.at + 2, message.size, k)
    end
end

-- shows the body of a ConnReq or ConnResp
local function opening(tree, pinfo, tvb, at)
    local digits = tvb(at, 4):raw():gsub("[^\33-\126]", ".")
    tree:add(f.version, tvb(at, 4), digits)
    local window = number(tree, f.window, tvb, at + 4, 2)
    tree:add(f.reserve, tvb(at + 6, 8))
    pinfo.cols.info:append(string.format(" version=%s N_sendmax=%d", digits, window))
end

-- returns the fault of the body of a ConnReq or ConnResp, if any
local function wrong_opening(tvb, at)
    local window = tvb(at + 4, 2):le_uint()
    if not tvb(at, 4):raw():match("^[0-9][0-9][0-9][0-9]$") then
        return "the version is not four digits"
    elseif window < 1 or window > WINDOW_MAX then
        return string.format("N_sendmax is %d, not 1 to %d", window, WINDOW_MAX)
    elseif tvb(at + 6, 8):raw() ~= string.rep("\0", 8) then
        return "the reserve is not zero"
    end
end

-- shows the body of a DiscReq
local function leaving(tree, pinfo, tvb, at)
    local detail, detail_item = number(tree, f.detail, tvb, at, 2)
    local reason, reason_item = number(tree, f.reason, tvb, at + 2, 2)
    local said = (DETAILS[reason] or {})[detail]
    if said then
        detail_item:append_text(" (" .. said .. ")")
    end
    local text = string.format("reason %d (%s), detail %d", reason, REASONS[reason] or "of another profile", detail)
    text = said and text .. " (" .. said .. ")" or text
    tell(reason_item, reason == 0 and e.closed or e.left, "Disconnection, " .. text)
    pinfo.cols.info:append(" " .. text)
end

-- returns the fault in the size of a body, if any
local function wrong_size(kind, size)
    local due
    if kind == 6200 or kind == 6201 then
        due = size ~= OPENING_BODY and OPENING_BODY
    elseif kind == 6216 then
        due = size ~= LEAVING_BODY and LEAVING_BODY
    elseif kind == 6240 or kind == 6241 then
        due = (size < UNIT_MIN or size > UNIT_MAX) and string.format("%d to %d", UNIT_MIN, UNIT_MAX)
    else
        due = size ~= 0 and 0
    end
    return due and string.format("the body has %d octets, but %s has %s; or the preference rasta.code is wrong", size, TYPES[kind], due)
end

-- returns the fault of a body, if any
local function wrong_body(tvb, at, size, kind)
    local wrong = wrong_size(kind, size)
    if not wrong and (kind == 6200 or kind == 6201) and held(tvb, at, size) == size then
        return wrong_opening(tvb, at)
    end
    return wrong
end

-- shows a body by its type; `wrong` is its fault, if any
local function body(tree, pinfo, tvb, at, size, kind, wrong)
    local is_opening = (kind == 6200 or kind == 6201) and size == OPENING_BODY
    if wrong and not is_opening then
        bytes(tree, f.octets, tvb, at, size)
    elseif kind == 6240 or kind == 6241 then
        unit(tree, pinfo, tvb, at, size)
    elseif held(tvb, at, size) < size then
        bytes(tree, f.octets, tvb, at, size)
        cut(tree, pinfo)
    elseif is_opening then
        opening(tree, pinfo, tvb, at)
    elseif kind == 6216 then
        leaving(tree, pinfo, tvb, at)
    end
    if wrong then
        fault(tree, pinfo, "safe", 5, "safe", wrong)
    end
end

-- shows the header of a safety PDU: returns its length, its type or nil if it is not captured, and the item of the type
local function safe_header(tree, pinfo, tvb, at)
    local length = number(tree, f.length, tvb, at, 2)
    local kind, kind_item = number(tree, f.kind, tvb, at + 2, 2)
    local receiver = number(tree, f.receiver, tvb, at + 4, 4)
    local sender = number(tree, f.sender, tvb, at + 8, 4)
    local sn = number(tree, f.sn, tvb, at + 12, 4)
    local cs = number(tree, f.cs, tvb, at + 16, 4)
    local ts, ts_item = number(tree, f.ts, tvb, at + 20, 4)
    local cts, cts_item = number(tree, f.cts, tvb, at + 24, 4)
    if not cts then
        return length, nil
    end
    ts_item:append_text(" ms")
    cts_item:append_text(" ms")
    local what = TYPES[kind] or "type " .. kind
    tree:append_text(string.format(", %s, SN %d", what, sn))
    pinfo.cols.info:prepend(string.format("%s %d → %d SN=%d CS=%d TS=%d CTS=%d ", what, sender, receiver, sn, cs, ts, cts))
    return length, kind, kind_item
end

local TOLD = { [6200] = e.opening, [6201] = e.opening, [6212] = e.again, [6213] = e.again, [6241] = e.again }

-- Kept across packets, by the rules of `rasta follow`: for each sender and receiver the numbers received and skipped lately, on all channels together; the
-- newest number of each way; the opening; the newest timestamp; which of its timestamps each of its PDUs confirms; and for each packet number the results.

local KEPT, FAR, WRAP = 32, 65535, 4294967296
local directions, found_of

-- returns how far a number is after another, or nil if it is before it or one is unknown
local function after(first, number)
    local steps = first and number and (number - first) % WRAP
    return steps and steps < WRAP / 2 and steps or nil
end

-- forgets the numbers of a direction
local function begin(direction)
    direction.newest, direction.known, direction.skipped = nil, {}, {}
end

local function direction_of(name)
    if not directions[name] then
        directions[name] = { ways = {}, confirming = {} }
        begin(directions[name])
    end
    return directions[name]
end

-- begins a direction with an opening, unless that is a copy: the octets came before, and after them nothing on its way
local function open_by(direction, way, pdu)
    local known, newest = direction.known[pdu.seq % KEPT], direction.ways[way]
    if known and known.seq == pdu.seq and known.octets == pdu.octets and (newest == nil or newest == pdu.seq) then
        return
    end
    begin(direction)
    direction.ways, direction.confirming, direction.opening, direction.since = {}, {}, pdu, pdu.ts
end

-- notes a redundancy number in its order and adds the result to `found`; returns whether the PDU is new, and whether it is the newest
local function note(direction, pdu, found)
    local place = pdu.seq % KEPT
    local known = direction.known[place]
    if known and known.seq == pdu.seq then
        found[known.octets == pdu.octets and "repeat_of" or "differs"] = known.packet
        return false, false
    elseif direction.skipped[place] == pdu.seq and (direction.newest - pdu.seq) % WRAP < KEPT then
        direction.skipped[place], direction.known[place] = nil, pdu
        return true, false
    end
    local steps = direction.newest == nil and 1 or after(direction.newest, pdu.seq)
    if not steps then
        return false, false
    elseif steps > FAR + 1 then
        begin(direction)
    elseif steps > 1 then
        found.gap = steps - 1
        for back = 1, math.min(steps, KEPT) - 1 do
            local skipped = (pdu.seq - back) % WRAP
            direction.skipped[skipped % KEPT] = skipped
        end
    end
    direction.newest, direction.known[place] = pdu.seq, pdu
    return true, true
end

-- whether a PDU confirms nothing: a ConnReq, and a DiscReq directly after it
local function confirms_nothing(direction, pdu)
    local opening = direction.opening
    return pdu.kind == 6200 or pdu.kind == 6216 and opening ~= nil and opening.kind == 6200 and pdu.sn == (opening.sn + 1) % WRAP
end

-- returns the time since the sender's timestamp that was last confirmed to it: by the PDU of the other end that this one confirms
local function waits(direction, peer, pdu)
    local confirmed = peer.confirming[pdu.cs % KEPT]
    if confirmed and confirmed.sn == pdu.cs and confirmed.ts == pdu.cts and not confirms_nothing(direction, pdu) then
        direction.since = confirmed.cts
    end
    direction.confirming[pdu.sn % KEPT] = pdu.kind ~= 6200 and pdu or nil
    return after(direction.since, pdu.ts)
end

-- compares a whole PDU with those before it, at its first visit
local function found_in(pinfo, pdu)
    local direction, peer = direction_of(pdu.sender .. ">" .. pdu.receiver), direction_of(pdu.receiver .. ">" .. pdu.sender)
    local way, found = tostring(pinfo.src) .. ":" .. pinfo.src_port .. ">" .. tostring(pinfo.dst) .. ":" .. pinfo.dst_port, {}
    if pdu.kind == 6200 or pdu.kind == 6201 then
        open_by(direction, way, pdu)
    end
    if direction.ways[way] == nil or after(direction.ways[way], pdu.seq) then
        direction.ways[way] = pdu.seq
    end
    local is_new, is_newest = note(direction, pdu, found)
    if is_newest then
        direction.stamp = pdu.ts
    end
    if not confirms_nothing(direction, pdu) and not (peer.opening and not after(peer.opening.ts, pdu.cts)) then
        found.age = after(pdu.cts, peer.stamp)
    end
    found.waits = is_new and waits(direction, peer, pdu) or nil
    return found
end

-- returns the results for a whole PDU without a fault
local function across(pinfo, tvb, at, size, seq, kind)
    if not pinfo.visited or not found_of[pinfo.number] then
        local function long(place)
            return tvb(at + place, 4):le_uint()
        end
        found_of[pinfo.number] = found_in(pinfo, {
            packet = pinfo.number, seq = seq, kind = kind, receiver = long(4), sender = long(8), sn = long(12), cs = long(16), ts = long(20),
            cts = long(24), octets = tvb(at, size):raw(),
        })
    end
    return found_of[pinfo.number]
end

-- adds the results for a PDU
local function remarks(tree, pinfo, found)
    if found.repeat_of then
        tree:add(f.repeat_of, found.repeat_of):set_generated()
        pinfo.cols.info:append(string.format(" [repeat of %d]", found.repeat_of))
    end
    if found.differs then
        tree:add(f.differs, found.differs):set_generated()
        tell(tree, e.differs, string.format("Packet %d has the same redundancy number and other octets", found.differs))
        pinfo.cols.info:append(string.format(" [differs from %d]", found.differs))
    end
    if found.gap then
        tree:add(f.gap, found.gap):set_generated()
        tell(tree, e.gap, string.format("%d redundancy numbers before it came on no channel so far", found.gap))
    end
    if found.age then
        tree:add(f.age, found.age):set_generated():append_text(" ms")
    end
    if found.waits then
        tree:add(f.waits, found.waits):set_generated():append_text(" ms")
    end
end

-- The safety code: MD4 (RFC 1320) with an initial value. `bit` is the library of Wireshark; its results may be negative, so sums are modulo 2^32.

local band, bxor, rol = bit.band, bit.bxor, bit.rol
local initial -- the four words of the preference rasta.iv, or nil if it has another form

-- reads the preference rasta.iv
local function read_initial()
    local hex = rasta.prefs.iv
    initial = #hex == 32 and not hex:find("%X") and { Struct.unpack("<I4I4I4I4", (hex:gsub("..", function(pair)
        return string.char(tonumber(pair, 16))
    end))) } or nil
end

-- returns the four words after a block: three rounds of sixteen steps
local function after_block(a, b, c, d, x)
    local a0, b0, c0, d0 = a, b, c, d
    for i = 1, 13, 4 do
        a = rol(a + bxor(d, band(b, bxor(c, d))) + x[i], 3)
        d = rol(d + bxor(c, band(a, bxor(b, c))) + x[i + 1], 7)
        c = rol(c + bxor(b, band(d, bxor(a, b))) + x[i + 2], 11)
        b = rol(b + bxor(a, band(c, bxor(d, a))) + x[i + 3], 19)
    end
    for i = 1, 4 do
        a = rol(a + band(b, c) + band(d, bxor(b, c)) + x[i] + 0x5a827999, 3)
        d = rol(d + band(a, b) + band(c, bxor(a, b)) + x[i + 4] + 0x5a827999, 5)
        c = rol(c + band(d, a) + band(b, bxor(d, a)) + x[i + 8] + 0x5a827999, 9)
        b = rol(b + band(c, d) + band(a, bxor(c, d)) + x[i + 12] + 0x5a827999, 13)
    end
    for _, i in ipairs({ 1, 3, 2, 4 }) do
        a = rol(a + bxor(b, c, d) + x[i] + 0x6ed9eba1, 3)
        d = rol(d + bxor(a, b, c) + x[i + 8] + 0x6ed9eba1, 9)
        c = rol(c + bxor(d, a, b) + x[i + 4] + 0x6ed9eba1, 11)
        b = rol(b + bxor(c, d, a) + x[i + 12] + 0x6ed9eba1, 15)
    end
    return a0 + a, b0 + b, c0 + c, d0 + d
end

-- returns the digest of a text, 16 octets
local function md4(text)
    local a, b, c, d = initial[1], initial[2], initial[3], initial[4]
    local whole = text .. "\128" .. string.rep("\0", (55 - #text) % 64) .. Struct.pack("<I4I4", #text * 8, 0)
    for place = 1, #whole, 64 do
        a, b, c, d = after_block(a, b, c, d, { Struct.unpack("<I4I4I4I4I4I4I4I4I4I4I4I4I4I4I4I4", whole, place) })
    end
    return Struct.pack("<I4I4I4I4", a % 4294967296, b % 4294967296, c % 4294967296, d % 4294967296)
end

-- returns the status of the code of a PDU
local function status_of(tvb, at, front, code)
    if code == 0 or not rasta.prefs.test or not initial or held(tvb, at, front + code) < front + code then
        return NOT_TESTED
    end
    return md4(tvb(at, front):raw()):sub(1, code) == tvb(at + front, code):raw() and RIGHT or WRONG
end

-- shows the safety code, if it was captured
local function safety_code(tree, pinfo, tvb, at, front, code, status)
    if held(tvb, at + front, code) == code then
        local item = tree:add(f.code, tvb(at + front, code))
        item:append_text(" [" .. STATUSES[status] .. "]")
        item:add(f.code_status, status):set_generated()
        if rasta.prefs.test and not initial then
            tell(item, e.iv, "The preference rasta.iv is not 32 hexadecimal digits")
        end
    elseif held(tvb, at, front) == front then
        cut(tree, pinfo)
    end
end

-- shows a PDU after its header, whose length is right
local function upper(top, tree, pinfo, tvb, at, front, code, seq, kind, kind_item)
    local status, place, size = status_of(tvb, at, front, code), at + SAFE_HEADER, front - SAFE_HEADER
    if status == WRONG then
        bytes(tree, f.octets, tvb, place, size)
        fault(tree, pinfo, "safe", 3, "safe", "the safety code is not that of the octets before it; or the preference rasta.iv is wrong")
    elseif not TYPES[kind] then
        bytes(tree, f.octets, tvb, place, size)
        fault(tree, pinfo, "safe", 4, "safe", "unknown type " .. kind)
    else
        local wrong = wrong_body(tvb, place, size, kind)
        local is_followed = not wrong and not pinfo.in_error_pkt and held(tvb, at, front + code) == front + code
        local found = is_followed and across(pinfo, tvb, at, front + code, seq, kind) or {}
        is_repeat = found.repeat_of ~= nil
        if TOLD[kind] and not wrong then
            tell(kind_item, TOLD[kind], LONG_TYPES[kind])
        end
        body(tree, pinfo, tvb, place, size, kind, wrong)
        remarks(top, pinfo, found)
    end
    if code > 0 then
        safety_code(tree, pinfo, tvb, at, front, code, status)
    end
end

-- shows the upper part of a redundancy PDU
local function safe_pdu(tree, pinfo, tvb, at, size, seq)
    local inner = subtree(tree, f.safe, tvb, at, size)
    local code = rasta.prefs.code
    if size < SAFE_HEADER + code then
        bytes(inner, f.octets, tvb, at, size)
        local why = string.format("%d octets, but header and safety code have %d", size, SAFE_HEADER + code)
        return fault(inner, pinfo, "safe", 1, "safe", why)
    end
    local length, kind, kind_item = safe_header(inner, pinfo, tvb, at)
    local wrong = size > SAFE_FRONT_MAX + code and string.format("%d octets, but at most %d are allowed", size, SAFE_FRONT_MAX + code)
        or length and length ~= size and string.format("the field has %d, but there are %d octets", length, size)
    if wrong then
        bytes(inner, f.octets, tvb, at + SAFE_HEADER, size - SAFE_HEADER)
        return fault(inner, pinfo, "safe", 2, "safe", wrong)
    elseif not kind then
        return cut(inner, pinfo)
    end
    upper(tree, inner, pinfo, tvb, at, size - code, code, seq, kind, kind_item)
end

-- shows a datagram
function rasta.dissector(tvb, pinfo, tree)
    local size = tvb:reported_len()
    pinfo.cols.protocol = "RaSTA"
    pinfo.cols.info = ""
    is_repeat = false
    local top = tree:add(rasta, tvb())
    local inner = subtree(top, f.red, tvb, 0, math.min(size, RED_HEADER))
    if size < RED_HEADER then
        bytes(inner, f.octets, tvb, 0, size)
        fault(inner, pinfo, "red", 1, "red", string.format("%d octets, but the header has %d", size, RED_HEADER))
        return size
    end
    local length = number(inner, f.red_length, tvb, 0, 2)
    local reserve = number(inner, f.red_reserve, tvb, 2, 2)
    local seq = number(inner, f.red_seq, tvb, 4, 4)
    if seq then
        inner:append_text(string.format(", sequence number %d", seq))
        pinfo.cols.info:append(string.format("seq=%d", seq))
    end
    local wrong = size > RED_MAX and string.format("%d octets, but at most %d are allowed", size, RED_MAX)
        or length and length ~= size and string.format("the field has %d, but the datagram has %d octets", length, size)
    if wrong then
        bytes(inner, f.octets, tvb, RED_HEADER, size - RED_HEADER)
        fault(inner, pinfo, "red", 2, "red", wrong)
    elseif reserve and reserve ~= 0 then
        bytes(inner, f.octets, tvb, RED_HEADER, size - RED_HEADER)
        fault(inner, pinfo, "red", 3, "red", string.format("the reserve is %04x, not zero", reserve))
    elseif not seq then
        cut(inner, pinfo)
    else
        safe_pdu(top, pinfo, tvb, RED_HEADER, size - RED_HEADER, seq)
    end
    return size
end

-- Recognising datagrams on other ports.

-- whether a datagram has the form of a RaSTA PDU: both lengths, the reserve, the type, and a body of its type's size with a code of some length
local function is_recognised(tvb)
    local size = tvb:reported_len()
    if size < RED_HEADER + SAFE_HEADER or size > RED_MAX or tvb:captured_len() < RED_HEADER + 4 then
        return false
    end
    local kind = tvb(RED_HEADER + 2, 2):le_uint()
    if not TYPES[kind] or tvb(0, 2):le_uint() ~= size or tvb(2, 2):uint() ~= 0 or tvb(RED_HEADER, 2):le_uint() ~= size - RED_HEADER then
        return false
    end
    for _, code in ipairs({ 0, 8, 16 }) do
        if size >= RED_HEADER + SAFE_HEADER + code and not wrong_size(kind, size - RED_HEADER - SAFE_HEADER - code) then
            return true
        end
    end
    return false
end

rasta:register_heuristic("udp", function(tvb, pinfo, tree)
    if not is_recognised(tvb) then
        return false
    end
    pinfo.conversation = rasta -- so a damaged datagram on these ports is shown too
    rasta.dissector(tvb, pinfo, tree)
    return true
end)

-- Ports. They are added when a capture is opened: then the preferences and each Decode As of a command line are known.

local udp = DissectorTable.get("udp.port")
local listed -- the list whose ports were added; nil before the first capture
udp:add_for_decode_as(rasta)

-- returns the ports of a list
local function ports_in(list)
    local found = {}
    for first, last in list:gmatch("(%d+)%-?(%d*)") do
        for port = tonumber(first), tonumber(last) or tonumber(first) do
            found[port] = true
        end
    end
    return found
end

-- removes the ports that are no longer in the preference, and adds those that are; a default port that has another Decode As keeps it
local function set_ports()
    local wanted, default = ports_in(rasta.prefs.ports), ports_in(DEFAULT_PORTS)
    for port in pairs(ports_in(listed or "")) do
        if not wanted[port] and tostring(udp:get_dissector(port)) == tostring(Dissector.get("rasta")) then
            udp:remove(port, rasta)
        end
    end
    for port in pairs(wanted) do
        if not (default[port] and udp:get_dissector(port)) then
            udp:add(port, rasta)
        end
    end
    listed = rasta.prefs.ports
end

function rasta.init()
    directions, found_of = {}, {}
    read_initial()
    if listed ~= rasta.prefs.ports then
        set_ports()
    end
end

function rasta.prefs_changed()
    read_initial()
    if listed and listed ~= rasta.prefs.ports then
        set_ports()
    end
end
