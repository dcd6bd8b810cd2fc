--[[
What the octets of EuroRadio's frames say, and what is found of them along a link: the part of the dissector tools/euroradio.lua that needs
nothing of Wireshark. It answers a table of its functions, and does nothing by itself where Wireshark loads it from a folder of plugins.

The octets are read as the tables of ISO/IEC 13239, ITU-T T.70, ITU-T X.224 and UNISIG SUBSET-037 have them, in the profile of EuroRadio. A fault
is a table with the reason with which an end of this profile would release, as "2.2", and with words that say what is wrong.
]]

-- ---------------------------------------------------------------------------------------------------------------------------------------
-- What the tables of the standards and of the profile name

local CALLED, CALLING = 0x01, 0x03

local SUPERVISORY = {[0] = "RR", "RNR", "REJ", "SREJ"}
local UNNUMBERED = {[0x2F] = "SABM", [0x43] = "DISC", [0x63] = "UA", [0x0F] = "DM", [0x87] = "FRMR"}
local UNNUMBERED_128 = {[0x6F] = "SABME", [0x43] = "DISC", [0x63] = "UA", [0x0F] = "DM", [0x87] = "FRMR"}
local IS_COMMAND = {I = true, SABM = true, SABME = true, DISC = true}
local IS_RESPONSE = {UA = true, DM = true, FRMR = true}
local MAY_INFORM = {I = true, FRMR = true}

local TPDU_NAMES = {
  CR = "connection request", CC = "connection confirm", DR = "disconnect request", DC = "disconnect confirm",
  DT = "data", AK = "data acknowledgement", ER = "TPDU error",
}
local TPDU_CODES = {[0x80] = "DR", [0xC0] = "DC", [0xF0] = "DT", [0x70] = "ER"}
local TPDU_CODES_WITH_CREDIT = {[0xE] = "CR", [0xD] = "CC", [0x6] = "AK"}
local EXACT_LENGTH = {DC = 5, DT = 4, AK = 4}
local LEAST_LENGTH = {CR = 6, CC = 6, DR = 6, ER = 4}
local MOST_USER_DATA = {CR = 32, CC = 32, DR = 64, DT = 1019, DC = 0, AK = 0, ER = 0}
local TPDU_SIZES = {[0x07] = 128, [0x08] = 256, [0x09] = 512, [0x0A] = 1024, [0x0B] = 2048, [0x0C] = 4096, [0x0D] = 8192}
local CLASS_2, SIZE_PARAMETER = 0x20, 0xC0

local SAPDU_KINDS = {[0x42] = "AU1", [0x24] = "AU2", [0x06] = "AU3", [0x12] = "AR", [0x0A] = "DT", [0x10] = "DI"}
local SAPDU_NAMES = {
  AU1 = "first authentication message", AU2 = "second authentication message", AU3 = "third authentication message",
  AR = "authentication response", DT = "data", DI = "disconnect",
}
local SAPDU_LENGTHS = {AU1 = {13, 13}, AU2 = {21, 21}, AU3 = {9, 9}, AR = {9, 9}, DT = {10, 1032}, DI = {3, 3}}
-- what an end awaits behind a SaPDU that it got
local AWAITED_BEHIND = {AU1 = "AU3", AU2 = "AR", AU3 = "DT", AR = "DT", DT = "DT"}

local LONGEST_FRAME, LONGEST_TPDU, LONGEST_MESSAGE, LARGEST_SIZE = 1030, 1024, 1032, 1024

-- Why an end releases, in the words that the program has.
local CAUSES = {
  ["1.1"] = "the set-up of the link was not answered",
  ["1.2"] = "no progress on the link: T1 expired too often in a row",
  ["1.3"] = "a frame that the link may not get",
  ["1.4"] = "the link was disconnected: DISC, DM or FRMR",
  ["1.5"] = "the line ended",
  ["1.6"] = "the line failed",
  ["1.7"] = "the line stalled: too much waited to be sent",
  ["2.1"] = "a DR without the DI of its sender",
  ["2.2"] = "a TPDU that is faulty or may not come now",
  ["2.3"] = "a message above 1,032 octets",
  ["2.4"] = "a faulty network block",
  ["3.1"] = "no key of this engine holds at the radio block centre",
  ["3.2"] = "the MAC of AU2 is wrong: the keys of both ends differ",
  ["3.3"] = "the MAC of AU3 is wrong",
  ["3.4"] = "the MAC of AR is wrong",
  ["3.5"] = "another radio block centre answered than was called",
  ["3.6"] = "the safety feature is unknown",
  ["4.1"] = "the MAC of a DT is wrong",
  ["4.2"] = "a SaPDU with the direction flag of its receiver",
  ["5.1"] = "a SaPDU that is not expected now",
  ["5.2"] = "octets that are no SaPDU",
  ["6.1"] = "the time for the set-up was spent",
}

local function cause_of(reason)
  return reason:match("^0%.") and "released by the user" or CAUSES[reason] or "a reason that this profile does not have"
end

-- ---------------------------------------------------------------------------------------------------------------------------------------
-- Reading octets. Places count from 0, as in a Tvb. Each reader answers what it could read, and the first fault.

local POWERS = {[0] = 1, 2, 4, 8, 16, 32, 64, 128}

-- `count` bits of an octet, from bit `low` on; bit 0 is the least significant
local function bits(octet, low, count)
  return math.floor(octet / POWERS[low]) % POWERS[count]
end

local function octet_at(octets, place)
  return octets:byte(place + 1)
end

local function number_at(octets, place)
  local high, low = octets:byte(place + 1, place + 2)
  return high * 256 + low
end

-- a number of octets, and a range of numbers, in words
local function counted(count)
  return count .. (count == 1 and " octet" or " octets")
end

local function range(least, most)
  return least == most and least or least .. " to " .. most
end

local function fault(reason, words, ...)
  return {reason = reason, words = words:format(...)}
end

local function without_poll(octet)
  return octet - 16 * bits(octet, 4, 1)
end

-- the control field of a frame; nil where it is none of the table
local function read_control(octets, extended)
  local first, second = octets:byte(2, 3)
  if first and first % 4 == 3 then
    local name = (extended and UNNUMBERED_128 or UNNUMBERED)[without_poll(first)]
    return name and {name = name, poll = bits(first, 4, 1), length = 1}
  elseif not first or extended and (not second or first % 2 == 1 and first > 15) then
    return nil
  end
  local control = extended and {poll = second % 2, nr = bits(second, 1, 7), length = 2}
    or {poll = bits(first, 4, 1), nr = bits(first, 5, 3), length = 1}
  if first % 2 == 1 then
    control.name = SUPERVISORY[bits(first, 2, 2)]
  else
    control.name, control.ns = "I", bits(first, 1, extended and 7 or 3)
  end
  return control
end

-- a frame; where the control is unknown it has neither kind nor information
local function read_frame(octets, extended)
  local control = read_control(octets, extended)
  local frame = {octets = octets, address = octet_at(octets, 0), control = control, kind = control and control.name}
  if control then
    frame.place = 1 + control.length
    frame.information = octets:sub(frame.place + 1)
  end
  return frame
end

local function read_block(octets)
  local first, second = octets:byte(1, 2)
  if first ~= 1 or second ~= 0x00 and second ~= 0x80 then
    local words = #octets < 2 and counted(#octets) .. ", where its two may be" or ("%02x %02x, where 01 00 or 01 80 may be"):format(first, second)
    return nil, fault("2.4", "network block header of %s", words)
  end
  return {more = second == 0x80, octets = octets:sub(3)}
end

local function is_allowed(kind, code)
  return kind == "CR" or kind == "ER" or kind == "CC" and code >= 0xC0 and code <= 0xC2 or kind == "DR" and code == 0xE0
end

-- the parameters behind the fixed part of a header, up to the first one that is wrong
local function read_parameters(tpdu, octets)
  local place, last = (LEAST_LENGTH[tpdu.kind] or tpdu.li) + 1, tpdu.li
  while place <= last do
    local code, length = octet_at(octets, place), place < last and octet_at(octets, place + 1)
    local is_size = code == SIZE_PARAMETER and tpdu.kind ~= "ER"
    if not length or place + 1 + length > last then
      return fault("2.2", "parameter %02x runs past the header", code)
    elseif not is_allowed(tpdu.kind, code) then
      return fault("2.2", "parameter %02x isn't allowed in %s", code, tpdu.kind)
    elseif is_size and (length ~= 1 or tpdu.size_code) then
      return fault("2.2", "parameter c0 (TPDU size) of %s%s", counted(length), tpdu.size_code and ", for the second time" or "")
    elseif is_size then
      tpdu.size_code = octet_at(octets, place + 2)
    end
    table.insert(tpdu.parameters, {place = place, code = code, length = length})
    place = place + 2 + length
  end
end

-- the fields of a TPDU whose header has its length
local function read_fields(tpdu, octets)
  local kind = tpdu.kind
  tpdu.dst = number_at(octets, 2)
  if kind == "CR" or kind == "CC" or kind == "DR" or kind == "DC" then
    tpdu.src = number_at(octets, 4)
  end
  if kind == "CR" or kind == "CC" or kind == "AK" then
    tpdu.credit = octet_at(octets, 1) % 16
  end
  if kind == "DT" then
    tpdu.number, tpdu.is_last = octet_at(octets, 4) % 128, octet_at(octets, 4) >= 128
  elseif kind == "AK" then
    tpdu.number = octet_at(octets, 4)
  elseif kind == "DR" or kind == "ER" then
    tpdu.reason = octet_at(octets, kind == "DR" and 6 or 4)
  end
  tpdu.user_place = tpdu.li + 1
  tpdu.user = octets:sub(tpdu.user_place + 1)
end

-- the faults that a TPDU's fields may have, in their order
local function fault_of_fields(tpdu, octets)
  local kind, found, most = tpdu.kind, #tpdu.user, MOST_USER_DATA[tpdu.kind]
  local is_opening = kind == "CR" or kind == "CC"
  if is_opening and octet_at(octets, 6) ~= CLASS_2 then
    return fault("2.2", "class octet %02x, not 20 (class 2, normal formats)", octet_at(octets, 6))
  end
  local wrong = read_parameters(tpdu, octets)
  if wrong then
    return wrong
  end
  tpdu.size = is_opening and (tpdu.size_code == nil and 128 or TPDU_SIZES[tpdu.size_code])
  if is_opening and not tpdu.size then
    return fault("2.2", "TPDU size %02x", tpdu.size_code)
  elseif kind == "AK" and tpdu.number >= 128 then
    return fault("2.2", "YR-TU-NR %02x with its top bit", tpdu.number)
  elseif found > most or kind == "DT" and found == 0 then
    return fault("2.2", "%s of user data in %s, where %s may be", counted(found), kind, range(kind == "DT" and 1 or 0, most))
  end
end

-- a TPDU. Where its kind can be told it has its fields; `parameters` are those before the first wrong one
local function read_tpdu(octets)
  local li, code = octets:byte(1, 2)
  local tpdu = {li = li, code = code, parameters = {}}
  if not li then
    return tpdu, fault("2.2", "no octet of a TPDU")
  elseif li == 0 or li == 255 or li + 1 > #octets then
    return tpdu, fault("2.2", "LI %d in a TPDU of %s", li, counted(#octets))
  end
  local kind = TPDU_CODES[code] or TPDU_CODES_WITH_CREDIT[bits(code, 4, 4)]
  if not kind then
    return tpdu, fault("2.2", "TPDU code %02x", code)
  elseif EXACT_LENGTH[kind] and li ~= EXACT_LENGTH[kind] or LEAST_LENGTH[kind] and li < LEAST_LENGTH[kind] then
    return tpdu, fault("2.2", "LI %d in %s", li, kind)
  end
  tpdu.kind = kind
  read_fields(tpdu, octets)
  return tpdu, fault_of_fields(tpdu, octets)
end

-- a SaPDU; a faulty one has no kind
local function read_sapdu(octets)
  local header = octet_at(octets, 0)
  if not header then
    return {}, fault("5.2", "no octet of a SaPDU")
  end
  local kind = SAPDU_KINDS[header - header % 2]
  local length = kind and SAPDU_LENGTHS[kind]
  if not kind then
    return {}, fault("5.2", "SaPDU header %02x", header)
  elseif #octets < length[1] or #octets > length[2] then
    return {}, fault("5.2", "%s of %s, where %s may be", kind, counted(#octets), range(length[1], length[2]))
  end
  local sapdu = {kind = kind, flag = header % 2, length = #octets}
  if kind == "AU1" or kind == "AU2" then
    sapdu.number = octet_at(octets, 1) * 65536 + number_at(octets, 2)
    sapdu.feature = octet_at(octets, 4)
  elseif kind == "DI" then
    sapdu.reason = octet_at(octets, 1) .. "." .. octet_at(octets, 2)
  end
  return sapdu
end

-- ---------------------------------------------------------------------------------------------------------------------------------------
-- Following a link. An end keeps what it sent (numbers of I frames and of DT, the block and the message that it began) and what it awaits.
-- What isn't known is nil, and isn't tested.

local function new_end(is_calling)
  return {
    name = is_calling and "engine" or "RBC", is_calling = is_calling, flag = is_calling and 0 or 1,
    address = is_calling and CALLING or CALLED, sent = {}, blocks = {}, joined = "", segments = {}, message = "",
    may_be_cut = true,
  }
end

local function new_link()
  local link = {engine = new_end(true), rbc = new_end(false), senders = {}}
  link.engine.peer, link.rbc.peer = link.rbc, link.engine
  return link
end

-- the transport and the safety layer begin: from here on what they number and await is known
local function begin_connection(link)
  for _, one in ipairs({link.engine, link.rbc}) do
    one.next_data, one.acked_data, one.edge, one.may_be_cut = 0, 0, nil, false
    one.awaited_tpdu = one.is_calling and "CC" or "CR"
    one.awaited_sapdu = one.is_calling and "AU2" or "AU1"
  end
  link.size, link.proposed = nil, nil
end

-- the link is set up, and so is all above it
local function set_up(link)
  for _, one in ipairs({link.engine, link.rbc}) do
    one.sent, one.blocks, one.joined, one.segments, one.message, one.released = {}, {}, "", {}, "", nil
    one.next, one.acked = 0, 0
  end
  begin_connection(link)
  link.engine.phase, link.rbc.phase = "setting", "up"
end

-- What is found of a packet is kept as long as the capture is open, so a table is made only where there is something for it: marks on layers,
-- and words for the packet's line.
local function add_mark(found, mark)
  found.marks = found.marks or {}
  table.insert(found.marks, mark)
end

local function note(found, layer, word, words)
  add_mark(found, {layer = layer, words = words})
  found.words = found.words and found.words .. ", " .. word or word
end

-- an end would release at what it got, unless it had released before
local function release(found, receiver, layer, wrong)
  if not receiver.released then
    add_mark(found, {layer = layer, reason = wrong.reason, words = wrong.words})
    found.reason = wrong.reason
    receiver.released = true
  end
end

-- an end is released by its peer's DI
local function release_by_peer(found, receiver, reason)
  if not receiver.released then
    local words = ("releases the %s by its peer with %s (%s)"):format(receiver.name, reason, cause_of(reason))
    add_mark(found, {layer = "sapdu", words = words, is_by_peer = true})
    found.by_peer = reason
    receiver.released = true
  end
end

-- the least number from `from` on that is shown as `shown`
local function named(from, shown, modulo)
  return from + (shown - from) % modulo
end

-- which number was acknowledged where the newest one that may be is known alone
local function learnt(newest, shown, modulo)
  return newest and newest - (newest - shown) % modulo
end

-- the rules of the safety layer that need no key
local function fault_of_sapdu(sapdu, sender, receiver)
  if sapdu.flag ~= sender.flag then
    return fault("4.2", "direction flag %d from the %s", sapdu.flag, sender.name)
  elseif sapdu.kind ~= "DI" and receiver.awaited_sapdu and sapdu.kind ~= receiver.awaited_sapdu then
    return fault("5.1", "%s where the %s awaits %s", sapdu.kind, receiver.name, receiver.awaited_sapdu)
  elseif sapdu.feature and sapdu.feature ~= 1 then
    return fault("3.6", "safety feature %d", sapdu.feature)
  end
end

local function follow_sapdu(found, sender, octets)
  local receiver = sender.peer
  local sapdu, wrong = read_sapdu(octets)
  wrong = wrong or fault_of_sapdu(sapdu, sender, receiver)
  if wrong then
    release(found, receiver, "sapdu", wrong)
  elseif sapdu.kind == "DI" then
    release_by_peer(found, receiver, sapdu.reason)
    sender.released = true
  elseif receiver.awaited_sapdu then
    receiver.awaited_sapdu = AWAITED_BEHIND[sapdu.kind]
  end
end

-- the references, and which TPDU may come at which time
local function fault_of_tpdu(tpdu, receiver)
  local wanted, awaited = tpdu.kind == "CR" and 0 or 1, receiver.awaited_tpdu
  if tpdu.dst ~= wanted or tpdu.src and tpdu.src ~= 1 then
    return fault("2.2", "DST-REF %04x%s in %s", tpdu.dst, tpdu.src and (" and SRC-REF %04x"):format(tpdu.src) or "", tpdu.kind)
  elseif tpdu.kind == "DC" or tpdu.kind == "ER" or tpdu.kind == (receiver.is_calling and "CR" or "CC") then
    return fault("2.2", "%s to the %s", tpdu.kind, receiver.name)
  elseif awaited == "CR" and tpdu.kind ~= "CR" or awaited == "CC" and tpdu.kind ~= "CC" and tpdu.kind ~= "DR" then
    return fault("2.2", "%s where the %s awaits %s", tpdu.kind, receiver.name, awaited)
  elseif awaited == "open" and (tpdu.kind == "CR" or tpdu.kind == "CC") then
    return fault("2.2", "a second %s", tpdu.kind)
  end
end

local TPDU_RULES = {}

-- CR and CC grant the credit of their sender, and bear the first texts of the safety layer
function TPDU_RULES.CR(found, link, sender, tpdu)
  if not sender.peer.awaited_tpdu then
    begin_connection(link)
  end
  sender.peer.awaited_tpdu, sender.peer.edge = "open", tpdu.credit
  link.size, link.proposed = math.min(tpdu.size, LARGEST_SIZE), tpdu.size
  follow_sapdu(found, sender, tpdu.user)
end

function TPDU_RULES.CC(found, link, sender, tpdu)
  if link.proposed and tpdu.size > link.proposed then
    return fault("2.2", "TPDU size %d in CC, where CR proposes %d", tpdu.size, link.proposed)
  end
  sender.peer.awaited_tpdu, sender.peer.edge = "open", tpdu.credit
  link.size = tpdu.size
  follow_sapdu(found, sender, tpdu.user)
end

function TPDU_RULES.DR(found, _, sender, tpdu)
  local sapdu = read_sapdu(tpdu.user)
  sender.released = true
  if sapdu.kind ~= "DI" or sapdu.flag ~= sender.flag then
    local what = sapdu.kind and ("%s with direction flag %d"):format(sapdu.kind, sapdu.flag) or counted(#tpdu.user) .. " that are no SaPDU"
    return fault("2.1", "%s", #tpdu.user > 0 and what or "no user data")
  end
  follow_sapdu(found, sender, tpdu.user)
end

local function fault_of_data(link, sender, tpdu)
  local expected, edge, found = sender.next_data, sender.edge, #tpdu.user
  if expected and tpdu.number ~= expected % 128 then
    return fault("2.2", "DT %d where %d is expected", tpdu.number, expected % 128)
  elseif expected and edge and expected >= edge then
    return fault("2.2", "DT %d at the upper edge of the credit", tpdu.number)
  elseif link.size and found > link.size - 5 then
    return fault("2.2", "%s of user data in DT, where the TPDU size is %d", counted(found), link.size)
  elseif #sender.message + found > LONGEST_MESSAGE then
    return fault("2.3", "%s of a message, where %d may be", counted(#sender.message + found), LONGEST_MESSAGE)
  end
end

-- A message is whole. The first one of a capture that begins in the midst may have begun before: then it is none unless it reads as one.
local function end_message(found, sender)
  local message, segments = sender.message, sender.segments
  local is_whole = not sender.may_be_cut or read_sapdu(message).flag == sender.flag
  sender.segments, sender.message, sender.may_be_cut = {}, "", false
  found.is_message, found.is_segment = is_whole, not is_whole
  if is_whole then
    if #segments > 1 then
      found.segments, found.message = segments, message
    end
    follow_sapdu(found, sender, message)
  end
end

function TPDU_RULES.DT(found, link, sender, tpdu)
  local wrong = fault_of_data(link, sender, tpdu)
  sender.next_data = named(sender.next_data or tpdu.number, tpdu.number, 128) + 1
  if wrong then
    sender.segments, sender.message = {}, ""
    return wrong
  end
  table.insert(sender.segments, found.number)
  sender.message = sender.message .. tpdu.user
  if tpdu.is_last then
    end_message(found, sender)
  else
    found.is_segment = true
  end
end

-- an AK acknowledges what its receiver sent, and moves the edge below which that may send
function TPDU_RULES.AK(_, _, sender, tpdu)
  local receiver = sender.peer
  local acked, next_data, edge = receiver.acked_data, receiver.next_data, receiver.edge
  local number = acked and named(acked, tpdu.number, 128) or learnt(next_data, tpdu.number, 128)
  if acked and number > next_data then
    return fault("2.2", "YR-TU-NR %d, where %s may be", tpdu.number, range(acked % 128, next_data % 128))
  elseif edge and number and number + tpdu.credit < edge then
    return fault("2.2", "YR-TU-NR %d with credit %d lowers the upper edge", tpdu.number, tpdu.credit)
  end
  receiver.acked_data, receiver.edge = number, number and number + tpdu.credit
end

local function follow_tpdu(found, link, sender, octets)
  local tpdu, wrong = read_tpdu(octets)
  wrong = wrong or fault_of_tpdu(tpdu, sender.peer) or TPDU_RULES[tpdu.kind](found, link, sender, tpdu)
  if wrong then
    release(found, sender.peer, "tpdu", wrong)
  end
end

local function follow_information(found, link, sender, information)
  local block, wrong = read_block(information)
  local joined = block and sender.joined .. block.octets
  if block and #joined > LONGEST_TPDU then
    wrong = fault("2.4", "%s of joined blocks, where %d may be", counted(#joined), LONGEST_TPDU)
  end
  table.insert(sender.blocks, found.number)
  if wrong then
    sender.blocks, sender.joined = {}, ""
    release(found, sender.peer, "block", wrong)
  elseif block.more then
    sender.joined = joined
  else
    found.is_tpdu = true
    if #sender.blocks > 1 then
      found.blocks, found.tpdu = sender.blocks, joined
    end
    sender.blocks, sender.joined = {}, ""
    follow_tpdu(found, link, sender, joined)
  end
end

-- what a frame shows that was sent before: the same, once more
local function is_shown_as(found, first)
  for _, name in ipairs({"is_tpdu", "blocks", "tpdu", "is_segment", "is_message", "segments", "message"}) do
    found[name] = first[name]
  end
  found.first = first.number
end

local function follow_numbered_information(found, link, sender, frame, settings)
  local ns, before = frame.control.ns, sender.sent[frame.control.ns]
  local expected = sender.next or ns
  if ns == expected % settings.modulo then
    sender.next = expected + 1
    sender.sent[ns] = {information = frame.information, found = found}
    if settings.has_layers then
      follow_information(found, link, sender, frame.information)
    end
    return
  end
  local why = ("N(S) %d where %d is expected"):format(ns, expected % settings.modulo)
  found.is_untaken = true
  if before and before.information == frame.information then
    is_shown_as(found, before.found)
    note(found, "frame", "again", ("%s: packet %d once more, not joined twice"):format(why, before.found.number))
  else
    note(found, "frame", "gap", why .. ": what is before it is missing, so it isn't taken")
  end
end

local function fault_of_acknowledgement(sender, frame, modulo)
  local receiver, nr = sender.peer, frame.control.nr
  local acked, newest = receiver.acked, receiver.next
  local number = acked and named(acked, nr, modulo) or learnt(newest, nr, modulo)
  if acked and number > newest then
    return fault("1.3", "N(R) %d, where %s may be", nr, range(acked % modulo, newest % modulo))
  end
  receiver.acked = number
end

local function follow_numbered(found, link, sender, frame, settings)
  local wrong = fault_of_acknowledgement(sender, frame, settings.modulo)
  if wrong then
    release(found, sender.peer, "frame", wrong)
  end
  if frame.kind == "I" then
    follow_numbered_information(found, link, sender, frame, settings)
  end
end

-- whether a set-up frame begins anew: nothing came before it, or all that came before is over
local function begins_anew(sender)
  return not sender.phase or sender.released and sender.peer.released
end

-- a set-up frame begins, or comes once more before the first I frame, or is an error
local function follow_set_up(found, link, sender)
  if begins_anew(sender) then
    set_up(link)
  elseif sender.next > 0 then
    release(found, sender.peer, "frame", fault("1.3", "a set-up frame behind an I frame"))
  else
    sender.phase = "setting"
  end
end

local function follow_unnumbered(found, link, sender, frame)
  local receiver = sender.peer
  if frame.kind == "SABM" or frame.kind == "SABME" then
    follow_set_up(found, link, sender)
  elseif frame.kind ~= "UA" then
    release(found, receiver, "frame", fault("1.4", "%s", frame.kind))
    sender.released = true
  elseif receiver.phase == "setting" then
    receiver.phase = "up"
  elseif receiver.phase and not receiver.released then
    note(found, "frame", "stray", "UA where no set-up of the link is under way: counted and ignored")
  end
end

-- why a frame is counted and ignored whatever the state of its receiver
local function stray_of(frame, sender)
  if frame.address ~= CALLED and frame.address ~= CALLING then
    return ("address %02x is neither 01 nor 03"):format(frame.address)
  elseif sender and (IS_COMMAND[frame.kind] and frame.address == sender.address or IS_RESPONSE[frame.kind] and frame.address ~= sender.address) then
    return ("%s from the %s with address %02x"):format(frame.kind, sender.name, frame.address)
  end
end

local function fault_of_frame(frame, sender)
  if not frame.control then
    local first = octet_at(frame.octets, 1)
    local is_set_up = UNNUMBERED[without_poll(first)] == "SABM" or UNNUMBERED_128[without_poll(first)] == "SABME"
    local hint = is_set_up and ", the set-up frame of the other modulo: see the preference" or ""
    return fault("1.3", "unknown control %02x%s", first, hint)
  elseif frame.kind == "SREJ" then
    return fault("1.3", "SREJ at a station with go-back")
  elseif not MAY_INFORM[frame.kind] and #frame.information > 0 then
    return fault("1.3", "%s of information in %s", counted(#frame.information), frame.kind)
  elseif (frame.kind == "SABM" or frame.kind == "SABME") and not sender.is_calling then
    return fault("1.3", "a set-up frame to the calling station")
  end
end

-- what is found of a frame of a link, whose sender is known
local function follow_frame(found, link, sender, frame, settings)
  local wrong, is_set_up = fault_of_frame(frame, sender), frame.kind == "SABM" or frame.kind == "SABME"
  if sender.peer.released and not (is_set_up and begins_anew(sender)) then
    note(found, "frame", "ignored", ("the %s has released, and ignores it"):format(sender.peer.name))
  end
  if wrong then
    release(found, sender.peer, "frame", wrong)
  elseif frame.control.nr and sender.peer.phase == "setting" then
    note(found, "frame", "stray", ("%s where the set-up of the link is under way: counted and ignored"):format(frame.kind))
    found.is_untaken = true
  elseif frame.control.nr then
    follow_numbered(found, link, sender, frame, settings)
  else
    follow_unnumbered(found, link, sender, frame)
  end
end

-- the end that sends commands to this address, or responses from it
local function sender_by_address(link, frame)
  local owner = frame.address == CALLED and link.rbc or frame.address == CALLING and link.engine or nil
  return owner and frame.control and (IS_COMMAND[frame.kind] and owner.peer or owner)
end

-- the end that sent a frame. Which end a direction is of is learnt from its first I or U frame
local function sender_of(link, frame, direction)
  local by_address = sender_by_address(link, frame)
  if not direction then
    return by_address
  elseif not link.senders[direction] and by_address and (IS_COMMAND[frame.kind] or IS_RESPONSE[frame.kind]) then
    link.senders[direction], link.senders[1 - direction] = by_address, by_address.peer
  end
  return link.senders[direction] or by_address
end

-- what is found of the next record of a link: `number` is the packet's, `direction` 0 or 1 where it is known
local function follow(link, frame, number, direction, settings)
  local found = {number = number}
  local sender = sender_of(link, frame, direction)
  local stray = stray_of(frame, sender)
  if sender then
    found.sender, found.receiver = sender.name, sender.peer.name
    found.is_command = not IS_RESPONSE[frame.kind] and frame.address ~= sender.address
  end
  if stray then
    note(found, "frame", "stray", stray .. ": counted and ignored")
    found.is_untaken = true
  elseif not sender then
    release(found, {}, "frame", fault_of_frame(frame))
  else
    if not link.engine.phase and frame.kind ~= "SABM" and frame.kind ~= "SABME" and not link.is_begun then
      note(found, "frame", "no set-up", "no set-up frame came before: an idle station would ignore it; read as if the link were up")
    end
    link.is_begun = true
    follow_frame(found, link, sender, frame, settings)
  end
  return found
end

-- a SaPDU that is a record by itself, from the safety layers of two ends without layers below
local function follow_text(link, octets, number, direction)
  local found = {number = number}
  local sapdu = read_sapdu(octets)
  local by_flag = sapdu.kind and (sapdu.flag == 0 and link.engine or link.rbc)
  if not link.is_begun and sapdu.kind == "AU1" then
    link.engine.awaited_sapdu, link.rbc.awaited_sapdu = "AU2", "AU1"
  end
  link.is_begun = true
  if direction and not link.senders[direction] and by_flag then
    link.senders[direction], link.senders[1 - direction] = by_flag, by_flag.peer
  end
  local sender = link.senders[direction] or by_flag or link.engine
  found.sender, found.receiver = sender.name, sender.peer.name
  if sender.peer.released then
    note(found, "frame", "ignored", ("the %s has released, and ignores it"):format(sender.peer.name))
  end
  follow_sapdu(found, sender, octets)
  return found
end

-- a record that is no frame: it is counted by its kind, and ignored
local function not_followed(link, number, direction, why)
  local sender = direction and link.senders[direction]
  local found = {number = number, sender = sender and sender.name, receiver = sender and sender.peer.name}
  note(found, "frame", why, why .. ": counted and ignored")
  return found
end

-- ---------------------------------------------------------------------------------------------------------------------------------------
-- Frames of an octet stream: what stood between two flags. The Lua of some Wiresharks has no library for bits, so XOR is a table of half octets.

local XOR = {}
for first = 0, 15 do
  XOR[first] = {}
  for second = 0, 15 do
    local sum = 0
    for place = 0, 3 do
      sum = sum + (bits(first, place, 1) ~= bits(second, place, 1) and 2 ^ place or 0)
    end
    XOR[first][second] = math.floor(sum)
  end
end

local function xor(first, second)
  return XOR[bits(first, 4, 4)][bits(second, 4, 4)] * 16 + XOR[first % 16][second % 16]
end

-- the check sequence's register behind an octet, its low and its high octet
local function shifted(low, high, octet)
  low = xor(low, octet)
  for _ = 1, 8 do
    local is_odd = low % 2 == 1
    low, high = math.floor(low / 2) + high % 2 * 128, math.floor(high / 2)
    if is_odd then
      low, high = xor(low, 0x08), xor(high, 0x84)
    end
  end
  return low, high
end

-- whether the last two octets are the check sequence of those before: then the register ends at F0B8
local function is_checked(octets)
  local low, high = 0xFF, 0xFF
  for place = 1, #octets do
    low, high = shifted(low, high, octets:byte(place))
  end
  return low == 0xB8 and high == 0xF0
end

-- a frame of an octet stream, without flags: its octets with escapes undone, without the check sequence where it is right, and what is wrong with it
local function unframed(octets)
  local is_aborted = false
  local content = octets:gsub("\125(.?)", function(octet)
    is_aborted = is_aborted or octet == ""
    return octet == "" and "" or string.char(xor(octet:byte(), 0x20))
  end)
  local wrong = is_aborted and "aborted" or #content > LONGEST_FRAME + 2 and "too long" or #content < 4 and "too short"
    or not is_checked(content) and "bad check sequence" or nil
  return wrong and content or content:sub(1, -3), wrong
end

return {
  CALLED = CALLED, CALLING = CALLING, SIZE_PARAMETER = SIZE_PARAMETER, IS_COMMAND = IS_COMMAND,
  TPDU_CODES = TPDU_CODES, TPDU_NAMES = TPDU_NAMES, TPDU_SIZES = TPDU_SIZES, SAPDU_KINDS = SAPDU_KINDS, SAPDU_NAMES = SAPDU_NAMES,
  LONGEST_FRAME = LONGEST_FRAME, bits = bits, counted = counted, cause_of = cause_of,
  read_frame = read_frame, read_block = read_block, read_tpdu = read_tpdu, read_sapdu = read_sapdu,
  new_link = new_link, follow = follow, follow_text = follow_text, not_followed = not_followed,
  unframed = unframed,
}
