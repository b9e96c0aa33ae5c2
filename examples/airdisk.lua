-- A dissector for Wireshark and tshark (4.0 or later), written from docs/FORMATS.md: what each bucket that comes as a datagram says, field
-- by field, and the fault of one that is none. An empty datagram is the end mark.
--
-- usage: tshark -X lua_script:examples/airdisk.lua -i lo -f 'udp port 4100'
--        wireshark -X lua_script:examples/airdisk.lua FILE
-- The port is a preference: -o airdisk.port:5000, or in Wireshark under Protocols, AIRDISK. Buckets of one more port are shown by "Decode As",
-- but not its end mark. What an ICMP message quotes is left alone.

local airdisk = Proto("airdisk", "Broadcast bucket")
airdisk.prefs.port = Pref.uint("UDP port", 4100, "the port to which buckets are aired; 0 for none")

local kinds = { [0] = "idle", [1] = "column", [2] = "vector" }
local IDLE, NO_ITEM, HEAD = 0, 65535, 24

-- The bytes of an entry, and the most items: in version 1 an entry is there as it is, in version 2 its age is
local rows = { [1] = { width = 4, most = 256 }, [2] = { width = 1, most = 1024 } }

-- The age that tells the entry 0
local NO_WRITER = 255

local fields = {
    magic = ProtoField.string("airdisk.magic", "Magic"),
    version = ProtoField.uint8("airdisk.version", "Version"),
    kind = ProtoField.uint8("airdisk.kind", "Kind", base.DEC, kinds),
    edition = ProtoField.uint16("airdisk.edition", "Edition"),
    count = ProtoField.uint16("airdisk.count", "Count"),
    cycle = ProtoField.uint32("airdisk.cycle", "Cycle"),
    slot = ProtoField.uint16("airdisk.slot", "Slot"),
    item = ProtoField.uint16("airdisk.item", "Item"),
    value = ProtoField.uint64("airdisk.value", "Value"),
    entry = ProtoField.uint32("airdisk.entry", "Entry"),
    age = ProtoField.uint8("airdisk.age", "Age"),
    rest = ProtoField.bytes("airdisk.rest", "No entry"),
    fault = ProtoField.string("airdisk.fault", "Fault"),
    over = ProtoField.bool("airdisk.end", "End mark"),
}
airdisk.fields = fields

local faulty = ProtoExpert.new("airdisk.faulty", "No bucket", expert.group.MALFORMED, expert.severity.ERROR)
airdisk.experts = { faulty }

-- The fields of the head, where each begins and how long it is
local head = {
    { "magic", 0, 2 }, { "version", 2, 1 }, { "kind", 3, 1 }, { "edition", 4, 2 }, { "count", 6, 2 },
    { "cycle", 8, 4 }, { "slot", 12, 2 }, { "item", 14, 2 }, { "value", 16, 8 },
}

-- Why a row of the table doesn't allow what stands for entry i; nil where it does
local function entry_fault(bytes, width, cycle, i)
    local number = bytes(HEAD + width * i, width):uint()
    if width == 4 then return number >= cycle and "entry " .. i .. " isn't below the cycle" or nil end
    if number == 0 then return "age " .. i .. " is 0" end
    if number ~= NO_WRITER and number >= cycle then return "age " .. i .. " isn't below the cycle" end
    return nil
end

-- Why a row of the table doesn't allow these bytes, which have the length of a bucket; nil where each does
local function shape_fault(bytes, row, kind, count, cycle, item)
    if count < 1 or count > row.most then return "the count isn't 1 to " .. row.most end
    if cycle == 0 then return "the cycle is 0" end
    if kind == IDLE then
        if item ~= NO_ITEM then return "an idle bucket has an item" end
        if bytes(16, 8):uint64() ~= UInt64(0) then return "an idle bucket has a value" end
        return nil
    end
    if item >= count then return "the item isn't below the count" end
    for i = 0, count - 1 do
        local why = entry_fault(bytes, row.width, cycle, i)
        if why then return why end
    end
    return nil
end

-- The first fault that applies, and why; nil where the bytes are a bucket
local function fault_of(bytes)
    local length = bytes:len()
    if length < HEAD then return "Short", length .. " bytes" end
    if bytes(0, 2):uint() ~= 0x4144 then return "Magic", "the first two bytes aren't AD" end
    local row = rows[bytes(2, 1):uint()]
    if not row then return "Version", "the version is neither 1 nor 2" end
    local kind, count = bytes(3, 1):uint(), bytes(6, 2):uint()
    if kind > 2 then return "Kind", "the kind is above 2" end
    local wanted = kind == IDLE and HEAD or HEAD + row.width * count
    if length ~= wanted then return "Length", length .. " bytes in place of " .. wanted end
    local why = shape_fault(bytes, row, kind, count, bytes(8, 4):uint(), bytes(14, 2):uint())
    if why then return "Shape", why end
    return nil
end

-- Adds the entry that an age of a cycle tells, and the age itself; where it is no age, that alone
local function add_age(tree, byte, cycle, item)
    local age = byte:uint()
    local entry = age == NO_WRITER and 0 or cycle - age
    if age == NO_WRITER or age >= 1 and entry >= 1 then
        tree:add(fields.entry, byte, entry):set_text("Entry of item " .. item .. ": " .. entry)
    end
    tree:add(fields.age, byte):set_text("Age of item " .. item .. ": " .. age)
end

-- Adds what is after the head: entries of four bytes, or from version 2 on their ages, each with its item, and what is too short for one
local function add_entries(tree, bytes)
    local at, item = HEAD, 0
    local row = bytes:len() >= HEAD and rows[bytes(2, 1):uint()] or rows[1]
    while at + row.width <= bytes:len() do
        if row.width == 1 then
            add_age(tree, bytes(at, 1), bytes(8, 4):uint(), item)
        else
            tree:add(fields.entry, bytes(at, 4)):set_text("Entry of item " .. item .. ": " .. bytes(at, 4):uint())
        end
        at, item = at + row.width, item + 1
    end
    if at < bytes:len() then tree:add(fields.rest, bytes(at)) end
end

-- What a bucket says, in a few words; idle buckets have no item, and of edition 0 nothing is said
local function brief(bytes)
    local edition = bytes(4, 2):uint()
    local place = (edition == 0 and "" or "edition " .. edition .. ", ") .. "cycle " .. bytes(8, 4):uint() .. ", slot " .. bytes(12, 2):uint()
    local kind = bytes(3, 1):uint()
    if kind == IDLE then return place .. ": idle" end
    return place .. ": item " .. bytes(14, 2):uint() .. " = " .. tostring(bytes(16, 8):uint64()) .. " (" .. kinds[kind] .. ")"
end

local quoting = Field.new("icmp")

function airdisk.dissector(bytes, packet, root)
    if quoting() then return 0 end
    local tree = root:add(airdisk, bytes())
    for _, field in ipairs(head) do
        local name, at, length = field[1], field[2], field[3]
        if at + length <= bytes:len() then tree:add(fields[name], bytes(at, length)) end
    end
    add_entries(tree, bytes)
    local fault, why = fault_of(bytes)
    local text = fault and fault .. ": " .. why or brief(bytes)
    if bytes:len() < bytes:reported_len() then
        text = "the capture has a part of it alone"
    elseif fault then
        tree:add(fields.fault, fault):set_generated()
        tree:add_proto_expert_info(faulty, text)
    end
    tree:append_text(", " .. text)
    packet.cols.protocol, packet.cols.info = "AIRDISK", text
    return bytes:len()
end

-- No dissector of a port is called for an empty datagram, so the end mark is found after all others
local over = Proto("airdisk_end", "Broadcast end mark")
local port_of, length_of = Field.new("udp.dstport"), Field.new("udp.length")

function over.dissector(_, packet, root)
    local port, length = port_of(), length_of()
    if quoting() or not port or port.value ~= airdisk.prefs.port or length.value ~= 8 then return end
    local tree = root:add(airdisk)
    tree:add(fields.over, true):set_generated()
    tree:append_text(", the end")
    packet.cols.protocol, packet.cols.info = "AIRDISK", "the end"
end

register_postdissector(over)

local ports, aired = DissectorTable.get("udp.port"), 0

-- Has the port of the preference dissected, and no longer the one before
local function aim()
    if aired ~= 0 then ports:remove(aired, airdisk) end
    aired = airdisk.prefs.port
    if aired ~= 0 then ports:add(aired, airdisk) end
end

airdisk.prefs_changed = aim
aim()
ports:add_for_decode_as(airdisk)
