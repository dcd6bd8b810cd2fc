--[[
A dissector of EuroRadio's frames for Wireshark and tshark 4.

    tshark -X lua_script:tools/euroradio.lua -r capture
    wireshark -X lua_script:tools/euroradio.lua capture

It takes the captures that tools/pcap writes: records of link type 147 (USER0), each one frame without its check sequence, that is address,
control and information, and records of link type 148 (USER1), each one SaPDU of a drill of level safe. From below it shows the frame (ISO/IEC
13239, balanced mode), the network block header (ITU-T T.70), the TPDU of class 2 (ITU-T X.224) and the SaPDU (safety layer, UNISIG SUBSET-037);
blocks are joined to TPDUs over frames, and segments to messages over TPDUs. What the profile calls a fault bears an expert mark with the reason
with which an end would release; what an end would ignore, and an I frame that comes again, bears a note.

It takes TCP too, of the ports that the preference `tcp_ports` names, or by "decode as" (`-d tcp.port==20000,euroradio_tcp`): each TCP stream is a
link, whose frames are cut from the octets between flags, escapes undone, and whose check sequences are tried. A packet's line has all frames that
end in it. Octets before the first flag of a direction, and frames that aren't intact, are shown and not followed.

Each interface of a capture of frames is a link. Which end sent a frame is told by the direction in the packet's flags, and where there is none by the
address: a command bears the receiver's, a response the sender's. I, SABM, SABME and DISC are commands; UA, DM and FRMR are responses, and so
are the S frames that ends of this profile send. A link is followed from its set-up frame on; where a capture begins later it is read as if the
link were up, and what isn't known isn't tested.

Followed is what the capture has. A frame that was lost on its way is in a capture of what was sent, so a mark says what an end would do that
got all that was sent before, and no more. No MAC is verified here, and no key is asked for: that is for the audit of recordings, which has the
keys. So the reasons 3.1 to 3.5 and 4.1 are never marked.

Preferences: `tcp_ports`; `modulo_128`, where the link was set up by SABME, and `link_only`, where I frames carry octets of the users themselves. To have
Wireshark load it always, put this file and euroradio_link.lua, which it reads, side by side in the folder of personal Lua plugins.
]]

local DESCRIPTION = "EuroRadio (HDLC, T.70, X.224 class 2, SUBSET-037)"

-- the part that reads octets and follows links stands in a file beside this one
local reader = dofile(debug.getinfo(1, "S").source:match("^@?(.-)[^/\\]*$") .. "euroradio_link.lua")
local CALLED, CALLING, counted = reader.CALLED, reader.CALLING, reader.counted

-- ---------------------------------------------------------------------------------------------------------------------------------------
-- The fields that are shown

local euroradio = Proto("euroradio", DESCRIPTION)
local texts = Proto("euroradio_sapdu", "EuroRadio's SaPDUs alone (SUBSET-037)")
local wires = Proto("euroradio_tcp", "EuroRadio over TCP")

euroradio.prefs.modulo_128 = Pref.bool("Modulo 128", false, "Numbers of I and S frames are modulo 128, and SABME sets a link up")
euroradio.prefs.link_only = Pref.bool("The link alone", false,
  "I frames carry octets of the users themselves, without network blocks, TPDUs and SaPDUs")

euroradio.prefs.tcp_ports = Pref.range("TCP ports", "", "TCP connections from or to these ports carry frames", 65535)

-- ---- words for values

local STATIONS = {[CALLED] = "called station, RBC", [CALLING] = "calling station, engine"}
local TPDU_CODE_WORDS = {}
for code, kind in pairs(reader.TPDU_CODES) do
  TPDU_CODE_WORDS[code] = kind .. ", " .. reader.TPDU_NAMES[kind]
end
local SIZE_WORDS = {}
for code, size in pairs(reader.TPDU_SIZES) do
  SIZE_WORDS[code] = size .. " octets"
end
local PARAMETERS = {
  [0xC0] = "TPDU size", [0xC1] = "calling transport service access point", [0xC2] = "called transport service access point",
  [0xC3] = "checksum", [0xC4] = "version", [0xC5] = "protection", [0xC6] = "additional options", [0xC7] = "alternative classes",
  [0x85] = "acknowledgement time", [0x86] = "throughput", [0x87] = "residual error rate", [0x88] = "priority", [0x89] = "transit delay",
  [0xE0] = "additional information on the clearing", [0xF0] = "preferred largest TPDU size", [0xF2] = "inactivity time",
}
local DR_REASONS = {
  [0] = "not specified", [1] = "congestion", [2] = "session entity not attached", [3] = "address unknown", [128] = "normal disconnect",
  [129] = "remote congestion at the request", [130] = "connection negotiation failed", [131] = "source reference twice",
  [132] = "references mismatched", [133] = "protocol error", [135] = "reference overflow", [136] = "request refused on this network connection",
  [138] = "header or parameter length invalid",
}
local ER_CAUSES = {[0] = "not specified", [1] = "invalid parameter code", [2] = "invalid TPDU type", [3] = "invalid parameter value"}
local ETY_WORDS = {[0] = "no number in it", [1] = "RBC", [2] = "engine"}
local DF_WORDS = {[0] = "from the initiator, engine", [1] = "from the responder, RBC"}
local MTI_WORDS = {}
for header, kind in pairs(reader.SAPDU_KINDS) do
  MTI_WORDS[reader.bits(header, 1, 4)] = kind .. ", " .. reader.SAPDU_NAMES[kind]
end

local FIELDS = {
  sender = ProtoField.string("euroradio.sender", "Sender"),
  receiver = ProtoField.string("euroradio.receiver", "Receiver"),
  release = ProtoField.string("euroradio.release", "The receiver would release with"),
  by_peer = ProtoField.string("euroradio.released_by_peer", "The receiver is released by its peer with"),
  octets = ProtoField.bytes("euroradio.octets", "Octets that no field is read from"),
  -- ISO/IEC 13239
  address = ProtoField.uint8("euroradio.address", "Address", base.HEX, STATIONS),
  frame = ProtoField.string("euroradio.frame", "Kind"),
  control = ProtoField.uint8("euroradio.control", "Control", base.HEX),
  control_128 = ProtoField.uint16("euroradio.control", "Control", base.HEX),
  ns = ProtoField.uint8("euroradio.ns", "N(S)", base.DEC, nil, 0x0E),
  nr = ProtoField.uint8("euroradio.nr", "N(R)", base.DEC, nil, 0xE0),
  pf = ProtoField.uint8("euroradio.pf", "P/F", base.DEC, nil, 0x10),
  ns_128 = ProtoField.uint8("euroradio.ns", "N(S)", base.DEC, nil, 0xFE),
  nr_128 = ProtoField.uint8("euroradio.nr", "N(R)", base.DEC, nil, 0xFE),
  pf_128 = ProtoField.uint8("euroradio.pf", "P/F", base.DEC, nil, 0x01),
  information = ProtoField.bytes("euroradio.information", "Information"),
  first = ProtoField.framenum("euroradio.first", "First sent in packet"),
  -- ITU-T T.70
  block_length = ProtoField.uint8("euroradio.block.length", "Header length, behind this octet", base.DEC),
  more = ProtoField.bool("euroradio.block.more", "More of this TPDU follows", 8, {"yes", "no"}, 0x80),
  block_octets = ProtoField.bytes("euroradio.block.octets", "Octets of a TPDU"),
  block_packet = ProtoField.framenum("euroradio.block.packet", "Block joined from packet"),
  -- ITU-T X.224
  tpdu = ProtoField.string("euroradio.tpdu", "TPDU"),
  li = ProtoField.uint8("euroradio.tpdu.li", "LI (length indicator)", base.DEC),
  code = ProtoField.uint8("euroradio.tpdu.code", "Code", base.HEX, TPDU_CODE_WORDS),
  code_of_credit = ProtoField.uint8("euroradio.tpdu.code_with_credit", "Code", base.HEX, {[0xE] = "CR, connection request",
    [0xD] = "CC, connection confirm", [0x6] = "AK, data acknowledgement"}, 0xF0),
  cdt = ProtoField.uint8("euroradio.tpdu.cdt", "CDT (credit)", base.DEC, nil, 0x0F),
  dst_ref = ProtoField.uint16("euroradio.tpdu.dst_ref", "DST-REF", base.HEX),
  src_ref = ProtoField.uint16("euroradio.tpdu.src_ref", "SRC-REF", base.HEX),
  class = ProtoField.uint8("euroradio.tpdu.class", "Class", base.DEC, nil, 0xF0),
  option = ProtoField.uint8("euroradio.tpdu.option", "Options", base.HEX, {[0] = "normal formats, explicit flow control"}, 0x0F),
  reason = ProtoField.uint8("euroradio.tpdu.reason", "Reason", base.DEC, DR_REASONS),
  cause = ProtoField.uint8("euroradio.tpdu.cause", "Reject cause", base.DEC, ER_CAUSES),
  eot = ProtoField.bool("euroradio.tpdu.eot", "EOT (end of the message)", 8, {"yes", "no"}, 0x80),
  tpdu_nr = ProtoField.uint8("euroradio.tpdu.tpdu_nr", "TPDU-NR", base.DEC, nil, 0x7F),
  yr_tu_nr = ProtoField.uint8("euroradio.tpdu.yr_tu_nr", "YR-TU-NR", base.DEC),
  parameter = ProtoField.uint8("euroradio.tpdu.parameter", "Parameter", base.HEX, PARAMETERS),
  parameter_length = ProtoField.uint8("euroradio.tpdu.parameter.length", "Length", base.DEC),
  parameter_value = ProtoField.bytes("euroradio.tpdu.parameter.value", "Value"),
  size = ProtoField.uint8("euroradio.tpdu.size", "TPDU size", base.HEX, SIZE_WORDS),
  user_data = ProtoField.bytes("euroradio.tpdu.user_data", "User data"),
  segment_packet = ProtoField.framenum("euroradio.tpdu.segment_packet", "Segment joined from packet"),
  -- UNISIG SUBSET-037
  sapdu = ProtoField.string("euroradio.sapdu", "SaPDU"),
  ety = ProtoField.uint8("euroradio.sapdu.ety", "ETY (ETCS identity type)", base.DEC, ETY_WORDS, 0xE0),
  mti = ProtoField.uint8("euroradio.sapdu.mti", "MTI (message type)", base.DEC, MTI_WORDS, 0x1E),
  df = ProtoField.uint8("euroradio.sapdu.df", "DF (direction flag)", base.DEC, DF_WORDS, 0x01),
  sa = ProtoField.uint24("euroradio.sapdu.sa", "SA (ETCS number of the sender)", base.DEC),
  saf = ProtoField.uint8("euroradio.sapdu.saf", "SaF (safety feature)", base.DEC),
  ra = ProtoField.bytes("euroradio.sapdu.ra", "Ra (random number of the responder)"),
  rb = ProtoField.bytes("euroradio.sapdu.rb", "Rb (random number of the initiator)"),
  user_octets = ProtoField.bytes("euroradio.sapdu.user", "User octets"),
  mac = ProtoField.bytes("euroradio.sapdu.mac", "MAC (not verified here)"),
  di_reason = ProtoField.uint8("euroradio.sapdu.reason", "Reason", base.DEC),
  di_sub = ProtoField.uint8("euroradio.sapdu.sub_reason", "Sub-reason", base.DEC),
}
local EXPERTS = {
  release = ProtoExpert.new("euroradio.expert.release", "An end would release", expert.group.PROTOCOL, expert.severity.ERROR),
  by_peer = ProtoExpert.new("euroradio.expert.by_peer", "An end is released by its peer", expert.group.SEQUENCE, expert.severity.CHAT),
  ignored = ProtoExpert.new("euroradio.expert.ignored", "An end would not take it", expert.group.SEQUENCE, expert.severity.NOTE),
}
euroradio.fields, euroradio.experts = FIELDS, EXPERTS

-- ---------------------------------------------------------------------------------------------------------------------------------------
-- Showing. Each function adds a layer below `root`, keeps its item in `layers` for the marks, and answers its words for the packet's line.
-- Octets come as a string, and as a Tvb for the fields' places; there is no Tvb where there are no octets.

local function generated(item)
  item:set_generated(true)
  return item
end

-- a layer with its name for filters
local function add_layer(layers, root, layer, range, title, field, name)
  local tree = root:add(range, title)
  layers[layer] = tree
  if name then
    generated(tree:add(field, range, name))
  end
  return tree
end

-- a layer that can't be read, with its octets
local function add_unread(layers, root, layer, tvb, title)
  layers[layer] = tvb and root:add(tvb(), title) or root:add(title)
  if tvb then
    layers[layer]:add(FIELDS.octets, tvb())
  end
end

local function add_packets(tree, field, numbers)
  for _, number in ipairs(numbers) do
    generated(tree:add(field, number))
  end
end

local function add_counted(tree, field, range)
  tree:add(field, range):append_text((" (%s)"):format(counted(range:len())))
end

-- a part of a Tvb, to its end
local function rest_of(tvb, place)
  return place < tvb:len() and tvb(place):tvb() or nil
end

-- octets that were joined of several packets, as a Tvb of their own
local function joined(octets, name)
  return #octets > 0 and ByteArray.new(octets, true):tvb(name) or nil
end

-- the words of a control field for the packet's line, and those for its layer
local function words_of_control(frame, found)
  local control = frame.control
  local is_command = reader.IS_COMMAND[frame.kind] or found.is_command
  local line, title = frame.kind, frame.kind .. (is_command and " command" or " response")
  if control.ns then
    line, title = line .. " " .. control.ns, title .. ", N(S) " .. control.ns
  end
  if control.nr then
    line, title = line .. " " .. control.nr, title .. ", N(R) " .. control.nr
  end
  if control.poll == 1 then
    line, title = line .. (is_command and " P" or " F"), title .. (is_command and ", P" or ", F")
  end
  return line, title
end

local function show_frame(layers, root, tvb, frame, found)
  local control = frame.control
  if not control then
    add_unread(layers, root, "frame", tvb, "Frame (ISO/IEC 13239) of an unknown control")
    return "unknown control"
  end
  local length, line, title = control.length, words_of_control(frame, found)
  local tree = add_layer(layers, root, "frame", tvb(0, frame.place), "Frame (ISO/IEC 13239): " .. title, FIELDS.frame, frame.kind)
  local suffix, last = length == 2 and "_128" or "", tvb(length, 1)
  tree:add(FIELDS.address, tvb(0, 1))
  local octets = tree:add(FIELDS["control" .. suffix], tvb(1, length))
  if control.ns then
    octets:add(FIELDS["ns" .. suffix], tvb(1, 1))
  end
  if control.nr then
    octets:add(FIELDS["nr" .. suffix], last)
  end
  octets:add(FIELDS["pf" .. suffix], last)
  return line
end

local function show_block(layers, root, tvb, octets, found)
  local block = reader.read_block(octets)
  if not block then
    add_unread(layers, root, "block", tvb, "No network block header (ITU-T T.70)")
    return "no network block"
  end
  local what = block.more and "more of the TPDU follows" or "the TPDU ends here"
  local tree = add_layer(layers, root, "block", tvb(0, 2), "Network block header (ITU-T T.70): " .. what)
  tree:add(FIELDS.block_length, tvb(0, 1))
  tree:add(FIELDS.more, tvb(1, 1))
  if not found.is_tpdu and #block.octets > 0 then
    add_counted(tree, FIELDS.block_octets, tvb(2))
    return ("block, %s of a TPDU"):format(counted(#block.octets))
  elseif not found.is_tpdu then
    return "block"
  elseif found.blocks then
    add_packets(tree, FIELDS.block_packet, found.blocks)
    return ("%d blocks"):format(#found.blocks)
  end
end

local function show_parameters(tree, tvb, tpdu)
  for _, parameter in ipairs(tpdu.parameters) do
    local place, length = parameter.place, parameter.length
    local item = tree:add(FIELDS.parameter, tvb(place, 1))
    item:set_len(2 + length)
    item:add(FIELDS.parameter_length, tvb(place + 1, 1))
    if parameter.code == reader.SIZE_PARAMETER and length == 1 then
      item:add(FIELDS.size, tvb(place + 2, 1))
    elseif length > 0 then
      item:add(FIELDS.parameter_value, tvb(place + 2, length))
    end
  end
end

-- the fixed part behind the code, by the kind of TPDU
local function show_fixed_part(tree, tvb, tpdu)
  local kind = tpdu.kind
  tree:add(FIELDS.dst_ref, tvb(2, 2))
  if tpdu.src then
    tree:add(FIELDS.src_ref, tvb(4, 2))
  end
  if kind == "CR" or kind == "CC" then
    tree:add(FIELDS.class, tvb(6, 1))
    tree:add(FIELDS.option, tvb(6, 1))
  elseif kind == "DR" then
    tree:add(FIELDS.reason, tvb(6, 1))
  elseif kind == "ER" then
    tree:add(FIELDS.cause, tvb(4, 1))
  elseif kind == "AK" then
    tree:add(FIELDS.yr_tu_nr, tvb(4, 1))
  elseif kind == "DT" then
    tree:add(FIELDS.eot, tvb(4, 1))
    tree:add(FIELDS.tpdu_nr, tvb(4, 1))
  end
end

local function line_of_tpdu(tpdu)
  local kind = tpdu.kind
  if kind == "CR" or kind == "CC" then
    return ("%s credit %d%s"):format(kind, tpdu.credit, tpdu.size and " size " .. tpdu.size or "")
  elseif kind == "AK" then
    return ("AK %d credit %d"):format(tpdu.number, tpdu.credit)
  elseif kind == "DT" then
    return "DT " .. tpdu.number .. (tpdu.is_last and " EOT" or "")
  end
  return kind .. (tpdu.reason and " " .. tpdu.reason or "")
end

local function show_tpdu(layers, root, tvb, tpdu)
  local kind = tpdu.kind
  if not kind then
    add_unread(layers, root, "tpdu", tvb, "No TPDU of class 2 (ITU-T X.224)")
    return "no TPDU"
  end
  local title = ("TPDU (ITU-T X.224): %s, %s"):format(kind, reader.TPDU_NAMES[kind])
  local tree = add_layer(layers, root, "tpdu", tvb(0, tpdu.li + 1), title, FIELDS.tpdu, kind)
  tree:add(FIELDS.li, tvb(0, 1))
  tree:add(tpdu.credit and FIELDS.code_of_credit or FIELDS.code, tvb(1, 1))
  if tpdu.credit then
    tree:add(FIELDS.cdt, tvb(1, 1))
  end
  show_fixed_part(tree, tvb, tpdu)
  show_parameters(tree, tvb, tpdu)
  if #tpdu.user > 0 then
    add_counted(tree, FIELDS.user_data, tvb(tpdu.user_place))
  end
  return line_of_tpdu(tpdu)
end

local function line_of_sapdu(sapdu)
  local kind = sapdu.kind
  return kind == "DT" and ("DT (SaPDU) %s"):format(counted(sapdu.length - 9))
    or kind == "DI" and "DI " .. sapdu.reason
    or sapdu.number and ("%s of %d"):format(kind, sapdu.number)
    or kind
end

-- the fields behind the header octet, by the kind of SaPDU
local function show_sapdu_fields(tree, tvb, sapdu)
  local kind, length = sapdu.kind, sapdu.length
  if kind == "DI" then
    tree:add(FIELDS.di_reason, tvb(1, 1)):append_text((" (%s)"):format(reader.cause_of(sapdu.reason)))
    tree:add(FIELDS.di_sub, tvb(2, 1))
    return
  elseif kind == "AU1" or kind == "AU2" then
    tree:add(FIELDS.sa, tvb(1, 3))
    tree:add(FIELDS.saf, tvb(4, 1))
    tree:add(kind == "AU1" and FIELDS.rb or FIELDS.ra, tvb(5, 8))
  elseif kind == "DT" then
    add_counted(tree, FIELDS.user_octets, tvb(1, length - 9))
  end
  if kind ~= "AU1" then
    tree:add(FIELDS.mac, tvb(length - 8, 8))
  end
end

local function show_sapdu(layers, root, tvb, octets)
  local sapdu = reader.read_sapdu(octets)
  if not sapdu.kind then
    add_unread(layers, root, "sapdu", tvb, "No SaPDU (UNISIG SUBSET-037)")
    return "no SaPDU"
  end
  local title = ("SaPDU (UNISIG SUBSET-037): %s, %s"):format(sapdu.kind, reader.SAPDU_NAMES[sapdu.kind])
  local tree = add_layer(layers, root, "sapdu", tvb(), title, FIELDS.sapdu, sapdu.kind)
  tree:add(FIELDS.ety, tvb(0, 1))
  tree:add(FIELDS.mti, tvb(0, 1))
  tree:add(FIELDS.df, tvb(0, 1))
  show_sapdu_fields(tree, tvb, sapdu)
  return line_of_sapdu(sapdu)
end

-- the text of the safety layer that a TPDU bears or ends
local function show_text(layers, root, tvb, tpdu, found)
  if found.is_segment then
    return ("%s of a message"):format(counted(#tpdu.user))
  elseif found.segments then
    add_packets(layers.tpdu, FIELDS.segment_packet, found.segments)
    local line = show_sapdu(layers, root, joined(found.message, "Message joined of segments"), found.message)
    return ("%d segments · %s"):format(#found.segments, line)
  elseif found.is_message or tpdu.kind == "CR" or tpdu.kind == "CC" or tpdu.kind == "DR" and #tpdu.user > 0 then
    return show_sapdu(layers, root, rest_of(tvb, tpdu.user_place), tpdu.user)
  end
end

-- the information of an I frame
local function show_information(layers, root, tvb, frame, found, lines)
  local information = rest_of(tvb, frame.place)
  lines[#lines + 1] = show_block(layers, root, information, frame.information, found)
  if found.is_tpdu then
    local octets = found.tpdu and joined(found.tpdu, "TPDU joined of blocks") or rest_of(information, 2)
    local tpdu = reader.read_tpdu(found.tpdu or frame.information:sub(3))
    lines[#lines + 1] = show_tpdu(layers, root, octets, tpdu)
    lines[#lines + 1] = tpdu.kind and show_text(layers, root, octets, tpdu, found)
  end
end

local function show_mark(item, found, mark)
  if mark.reason then
    local cause = reader.cause_of(mark.reason)
    local words = ("the %s would release with %s (%s): %s"):format(found.receiver or "receiver", mark.reason, cause, mark.words)
    item:add_proto_expert_info(EXPERTS.release, words)
  else
    item:add_proto_expert_info(mark.is_by_peer and EXPERTS.by_peer or EXPERTS.ignored, mark.words)
  end
end

-- which end sent the frame, and what the other one would do
local function show_ends(root, found)
  if found.sender then
    generated(root:add(FIELDS.sender, found.sender))
    generated(root:add(FIELDS.receiver, found.receiver))
  end
  if found.reason then
    generated(root:add(FIELDS.release, found.reason))
  elseif found.by_peer then
    generated(root:add(FIELDS.by_peer, found.by_peer))
  end
end

-- the marks on the layers of a frame; answers its line
local function show_found(layers, root, found, lines)
  if found.words then
    lines[1] = ("%s (%s)"):format(lines[1], found.words)
  end
  local line = table.concat(lines, " · ") .. (found.reason and " ! " .. found.reason or "")
  root:append_text(": " .. line)
  for _, mark in ipairs(found.marks or {}) do
    show_mark(layers[mark.layer] or root, found, mark)
  end
  return line
end

-- the columns of a packet that is a frame
local function show_columns(pinfo, found, line)
  if found.sender then
    pinfo.cols.src, pinfo.cols.dst = found.sender, found.receiver
  end
  pinfo.cols.protocol, pinfo.cols.info = "EuroRadio", line
end

-- ---------------------------------------------------------------------------------------------------------------------------------------
-- Packets. What is found of a frame is kept by its packet's number, and its place in that, so that it shows the same whenever it is dissected again.

local interface_of, flags_of, stream_of = Field.new("frame.interface_id"), Field.new("frame.packet_flags"), Field.new("tcp.stream")
local links, findings = {}, {}

function euroradio.init()
  links, findings = {}, {}
end

local function value_of(extractor)
  local info = extractor()
  return info and info.value
end

-- where a packet stands that is a frame: its link, as far as it is told, its key, and its direction, 0 or 1, where it is known
local function place_of_packet(pinfo)
  local direction = (pinfo.p2p_dir == 0 or pinfo.p2p_dir == 1) and pinfo.p2p_dir or nil
  return {number = pinfo.number, link = value_of(interface_of), key = pinfo.number, direction = direction}
end

local function link_of(place)
  local name = place.link or "unknown"
  links[name] = links[name] or reader.new_link()
  return links[name]
end

-- What is found of a frame where it is dissected first, and from then on the same. In the first of tshark's two passes (-2) the link isn't
-- told: the second pass then follows the links anew, in the same order.
local function found_of(place, look)
  local found = findings[place.key]
  if not found or place.link and found.link ~= place.link then
    found = look(link_of(place), place.direction)
    found.link = place.link
    findings[place.key] = found
  end
  return found
end

-- what the flags of a packet say is wrong with it (bits 24, 25, 26 and 31), or what its length does
local function wrong_with(tvb)
  local errors = math.floor((value_of(flags_of) or 0) / 16777216)
  return errors % 2 == 1 and "bad check sequence" or errors % 4 >= 2 and "too long" or errors % 8 >= 4 and "too short"
    or errors >= 128 and "aborted" or tvb:len() < 2 and "too short" or tvb:len() > reader.LONGEST_FRAME and "too long"
end

-- Octets that are no frame. Answers what is found of them, and their line.
local function show_no_frame(tvb, root, place, wrong)
  local layers = {}
  local found = found_of(place, function(link, direction)
    return reader.not_followed(link, place.number, direction, wrong)
  end)
  show_ends(root, found)
  add_unread(layers, root, "frame", tvb, "No frame (ISO/IEC 13239): " .. wrong)
  return found, show_found(layers, root, found, {"no frame"})
end

-- A frame without its check sequence. Answers the same.
local function show_whole_frame(tvb, root, place)
  local layers, lines = {}, {}
  local settings = {modulo = euroradio.prefs.modulo_128 and 128 or 8, has_layers = not euroradio.prefs.link_only}
  local frame = reader.read_frame(tvb:raw(), settings.modulo == 128)
  local found = found_of(place, function(link, direction)
    return reader.follow(link, frame, place.number, direction, settings)
  end)
  show_ends(root, found)
  lines[1] = show_frame(layers, root, tvb, frame, found)
  if found.first then
    generated(layers.frame:add(FIELDS.first, found.first))
  end
  if frame.kind == "I" and settings.has_layers and (found.first or not found.is_untaken) then
    show_information(layers, root, tvb, frame, found, lines)
  elseif frame.information and #frame.information > 0 then
    add_counted(layers.frame, FIELDS.information, tvb(frame.place))
    lines[#lines + 1] = counted(#frame.information)
  end
  return found, show_found(layers, root, found, lines)
end

function euroradio.dissector(tvb, pinfo, root)
  local tree, wrong, place = root:add(euroradio, tvb()), wrong_with(tvb), place_of_packet(pinfo)
  if wrong then
    show_columns(pinfo, show_no_frame(tvb, tree, place, wrong))
  else
    show_columns(pinfo, show_whole_frame(tvb, tree, place))
  end
end

function texts.dissector(tvb, pinfo, root)
  local layers, tree, place = {}, root:add(euroradio, tvb()), place_of_packet(pinfo)
  local octets = tvb:len() > 0 and tvb:raw() or ""
  local found = found_of(place, function(link, direction)
    return reader.follow_text(link, octets, place.number, direction)
  end)
  show_ends(tree, found)
  show_columns(pinfo, found, show_found(layers, tree, found, {show_sapdu(layers, tree, tvb, octets)}))
end

-- ---------------------------------------------------------------------------------------------------------------------------------------
-- TCP. Each call has the octets of a direction that were not taken before, as far as they came.

-- Octets without a flag for which no more are waited: a frame of them would be too long, even if all were escaped.
local MOST_OPEN = 2 * (reader.LONGEST_FRAME + 2)

-- where the octets from here on stand in their stream; the directions of a stream differ by their ports, or else by their addresses
local function place_in_stream(pinfo, tvb, at)
  local stream = value_of(stream_of)
  local from, to = pinfo.src_port, pinfo.dst_port
  if from == to then
    from, to = tostring(pinfo.src), tostring(pinfo.dst)
  end
  return {number = pinfo.number, link = stream and "stream " .. stream, key = ("%d %d %d"):format(pinfo.number, tvb:offset(), at),
    direction = from < to and 0 or 1}
end

-- What stands between two flags, from `first` to before `last`; `has_flag` says that a flag stands before it in these octets. Answers its line.
local function show_piece(tvb, pinfo, root, piece)
  local place = place_in_stream(pinfo, tvb, piece.first)
  local range = tvb(piece.first, piece.last - piece.first)
  local content, wrong = reader.unframed(range:raw())
  local found, line
  local is_dropped = not piece.has_flag and not (findings[place.key] or link_of(place).has_flag and link_of(place).has_flag[place.direction])
  local tree = root:add(euroradio, range)
  wrong = (is_dropped or findings[place.key] and findings[place.key].is_dropped) and "before the first flag" or piece.wrong or wrong
  if wrong then
    found, line = show_no_frame(range:tvb(), tree, place, wrong)
    found.is_dropped = is_dropped or found.is_dropped
  else
    found, line = show_whole_frame(joined(content, "Frame, escapes undone"), tree, place)
  end
  return found, line
end

-- a flag was seen in this direction
local function has_flag(place)
  local link = link_of(place)
  link.has_flag = link.has_flag or {}
  link.has_flag[place.direction] = true
end

-- Cuts these octets at their flags. Answers the pieces, and the place behind the last one.
local function pieces_of(octets)
  local pieces, at = {}, 0
  while true do
    local first = octets:find("[^\126]", at + 1)
    local last = first and octets:find("\126", first, true)
    if not first then
      return pieces, #octets
    elseif not last and #octets - at <= MOST_OPEN then
      return pieces, at
    end
    pieces[#pieces + 1] = {first = first - 1, last = last and last - 1 or #octets, has_flag = first > at + 1 or #pieces > 0,
      wrong = not last and "too long" or nil}
    at = last or #octets
  end
end

function wires.dissector(tvb, pinfo, root)
  local octets, lines, sender = tvb:raw(), {}, nil
  local pieces, rest = pieces_of(octets)
  for _, piece in ipairs(pieces) do
    local found, line = show_piece(tvb, pinfo, root, piece)
    sender, lines[#lines + 1] = sender or found.sender, line
    has_flag(place_in_stream(pinfo, tvb, 0))
  end
  if rest < #octets and pinfo.can_desegment > 0 then
    pinfo.desegment_offset, pinfo.desegment_len = rest, DESEGMENT_ONE_MORE_SEGMENT
  elseif octets:find("\126", 1, true) then
    has_flag(place_in_stream(pinfo, tvb, 0))
  end
  if #lines > 0 then
    pinfo.cols.protocol = "EuroRadio"
    pinfo.cols.info = (sender and sender .. ": " or "") .. table.concat(lines, " | ") .. " "
    pinfo.cols.info:fence()
  end
end

local encapsulations, tcp_ports = DissectorTable.get("wtap_encap"), DissectorTable.get("tcp.port")
encapsulations:add(wtap.USER0, euroradio)
encapsulations:add(wtap.USER1, texts)
tcp_ports:add_for_decode_as(wires)

local added = ""
function euroradio.prefs_changed()
  local wanted = euroradio.prefs.tcp_ports
  if added ~= "" and added ~= wanted then
    tcp_ports:remove(added, wires)
  end
  if wanted ~= "" and added ~= wanted then
    tcp_ports:add(wanted, wires)
  end
  added = wanted
end
