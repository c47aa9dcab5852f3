-- Names the messages between the machines of lardsim, for Wireshark and tshark:
--     tshark -X lua_script:tools/lard.lua -r run.pcap
-- docs/FORMATS.md has the bytes of each kind of message, and tools/pcap makes the capture.

local lard = Proto("lard", "lardsim message")

-- No number stands for two kinds, whatever the version.
local kinds = {
    [1] = "Offer", [2] = "Taken", [3] = "Refused", [4] = "Forward", [5] = "Ask", [6] = "Tag",
    [7] = "Fetch", [8] = "Content", [9] = "Ended", [10] = "EndedAck", [11] = "Give", [12] = "Given",
}
local reasons = { [0] = "both sides closed", [1] = "reset by the client", [2] = "stream limit" }
local flags = { "FIN", "SYN", "RST", "PSH", "ACK", "URG", "ECE", "CWR" } -- from the lowest bit

local f = {
    version = ProtoField.uint8("lard.version", "Version"),
    kind = ProtoField.uint8("lard.kind", "Kind", base.DEC, kinds),
    connection = ProtoField.uint16("lard.connection", "Connection"),
    epoch = ProtoField.uint16("lard.epoch", "Epoch"),
    length = ProtoField.uint32("lard.length", "Length of the body"),
    -- Offer, Give
    irs = ProtoField.uint32("lard.irs", "Client's initial sequence number"),
    iss = ProtoField.uint32("lard.iss", "Cluster's initial sequence number"),
    got = ProtoField.uint32("lard.got", "Bytes received"),
    fin = ProtoField.uint8("lard.fin", "FIN was taken"),
    una = ProtoField.uint32("lard.una", "Acknowledged (UNA)"),
    wnd = ProtoField.uint16("lard.wnd", "Client's window"),
    wl1 = ProtoField.uint32("lard.wl1", "WL1"),
    wl2 = ProtoField.uint32("lard.wl2", "WL2"),
    mss = ProtoField.uint16("lard.mss", "Maximum segment size"),
    served = ProtoField.uint32("lard.served", "Responses queued before"),
    unread = ProtoField.string("lard.unread", "Unread bytes"),
    -- Forward
    seq = ProtoField.uint32("lard.seq", "Sequence number"),
    ack = ProtoField.uint32("lard.ack", "Acknowledgement number"),
    flags = ProtoField.string("lard.flags", "Flags"),
    data = ProtoField.string("lard.data", "Data"),
    -- Ask, Tag
    number = ProtoField.uint32("lard.number", "Number of the Ask"),
    queue = ProtoField.uint32("lard.queue", "Jobs queued at the disk"),
    size = ProtoField.uint8("lard.size", "Size of the batch"),
    count = ProtoField.uint8("lard.count", "How many"),
    path = ProtoField.string("lard.path", "Path"),
    node = ProtoField.uint8("lard.node", "Node"),
    -- Fetch, Content
    request = ProtoField.uint32("lard.request", "Request"),
    content_length = ProtoField.uint32("lard.content_length", "Length of the content"),
    content = ProtoField.bytes("lard.content", "Content"),
    -- Ended
    reason = ProtoField.uint8("lard.reason", "Reason", base.DEC, reasons),
    snd = ProtoField.uint32("lard.snd", "SND.NXT"),
    rcv = ProtoField.uint32("lard.rcv", "RCV.NXT"),
    limit_count = ProtoField.uint32("lard.limit_count", "Count that would have passed the limit"),
}
for _, field in pairs(f) do
    table.insert(lard.fields, field)
end

-- A reader goes through a body from left to right: take adds the next so many bytes to the tree, as this field.
local function reader(buffer, tree)
    local at = 10
    local r = {}
    function r.take(field, size)
        local range = buffer(at, size)
        tree:add(field, range)
        at = at + size
        return range
    end
    -- bytes behind their length of two bytes
    function r.counted(field)
        local size = buffer(at, 2):uint()
        at = at + 2
        if size == 0 then
            return ""
        end
        return r.take(field, size):string()
    end
    function r.left()
        return buffer:len() - at
    end
    return r
end

-- Of each kind: what its body has, and in a few words what it says.
local bodies = {}

function bodies.Offer(r)
    for _, part in ipairs { { f.irs, 4 }, { f.iss, 4 }, { f.got, 4 }, { f.fin, 1 }, { f.una, 4 }, { f.wnd, 2 }, { f.wl1, 4 }, { f.wl2, 4 }, { f.mss, 2 }, { f.served, 4 } } do
        r.take(part[1], part[2])
    end
    return #r.counted(f.unread) .. " unread"
end

function bodies.Taken()
    return ""
end

function bodies.Forward(r, buffer, tree)
    local size = r.left()
    local header = math.min(size, 4 * buffer(10 + 12, 1):bitfield(0, 4))
    local names = {}
    local bits = buffer(10 + 13, 1):uint()
    for bit, name in ipairs(flags) do
        if bits % 2 ^ bit >= 2 ^ (bit - 1) then
            table.insert(names, name)
        end
    end
    names = table.concat(names, " ")
    tree:add(f.seq, buffer(10 + 4, 4))
    tree:add(f.ack, buffer(10 + 8, 4))
    tree:add(f.flags, buffer(10 + 13, 1), names)
    if size > header then
        tree:add(f.data, buffer(10 + header, size - header))
    end
    return names .. ", " .. (size - header) .. " bytes"
end

function bodies.Ask(r)
    local number = r.take(f.number, 4):uint()
    r.take(f.queue, 4)
    r.take(f.size, 1)
    local paths = {}
    for _ = 1, r.take(f.count, 1):uint() do
        table.insert(paths, r.counted(f.path))
    end
    return number .. ": " .. table.concat(paths, " ")
end

function bodies.Tag(r)
    local number = r.take(f.number, 4):uint()
    local nodes = {}
    for _ = 1, r.take(f.count, 1):uint() do
        table.insert(nodes, "n" .. r.take(f.node, 1):uint())
    end
    return number .. ": " .. table.concat(nodes, " ")
end

function bodies.Fetch(r)
    local request = r.take(f.request, 4):uint()
    return request .. ": " .. r.counted(f.path)
end

function bodies.Content(r)
    local request = r.take(f.request, 4):uint()
    local size = r.take(f.content_length, 4):uint()
    if r.left() > 0 then
        r.take(f.content, r.left())
    end
    return request .. ": " .. size .. " bytes"
end

function bodies.Ended(r)
    local reason = r.take(f.reason, 1):uint()
    r.take(f.snd, 4)
    r.take(f.rcv, 4)
    r.take(f.limit_count, 4)
    return reasons[reason] or "unknown"
end

function bodies.EndedAck()
    return ""
end

function bodies.Refused()
    return ""
end

bodies.Give = bodies.Offer

function bodies.Given()
    return ""
end

function lard.dissector(buffer, pinfo, root)
    if buffer:len() < 10 then
        return 0
    end
    local kind = kinds[buffer(1, 1):uint()] or "unknown"
    local tree = root:add(lard, buffer())
    tree:add(f.version, buffer(0, 1))
    tree:add(f.kind, buffer(1, 1))
    tree:add(f.connection, buffer(2, 2))
    tree:add(f.epoch, buffer(4, 2))
    tree:add(f.length, buffer(6, 4))
    local what = kind .. " c" .. buffer(2, 2):uint() .. " epoch " .. buffer(4, 2):uint()
    if bodies[kind] then
        local says = bodies[kind](reader(buffer, tree), buffer, tree)
        if says ~= "" then
            what = what .. ", " .. says
        end
    end
    tree:append_text(": " .. what)
    pinfo.cols.protocol = "LARD"
    pinfo.cols.info = what
    return buffer:len()
end

DissectorTable.get("udp.port"):add(40080, lard)
