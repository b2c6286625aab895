-- A line of the record for each request, as JSON in ASCII: docs/RECORDS.md says what stands in it. No line has a key.
-- deploy/desk.nginx calls what stands at the end of this file, after the request is answered. Of a plain read the
-- caller's digits alone are set, and nginx writes the line by itself, which costs less.
--
-- LuaJIT compiles a function that has no loop and makes no function, and a loop by itself. nginx's variables cost
-- little where they are read in compiled code, and much elsewhere. So each is read and set in a function without loops.

local ffi = require "ffi"
local json = require "cjson.safe"
require "ngx.base64"
local ngx, tonumber, tostring, type, error, pcall, ipairs = ngx, tonumber, tostring, type, error, pcall, ipairs
local find, sub, gsub, byte, char, format, lower = string.find, string.sub, string.gsub, string.byte, string.char, string.format, string.lower
local floor, max, min, ceil, concat = math.floor, math.max, math.min, math.ceil, table.concat
local get_method, start_time, now = ngx.req.get_method, ngx.req.start_time, ngx.now

-- (of the libcrypto that nginx has for TLS)
ffi.cdef [[
    typedef struct evp_md_st EVP_MD;
    typedef struct evp_md_ctx_st EVP_MD_CTX;
    EVP_MD *EVP_MD_fetch(void *library, const char *name, const char *properties);
    EVP_MD_CTX *EVP_MD_CTX_new(void);
    int EVP_DigestInit_ex(EVP_MD_CTX *context, const EVP_MD *kind, void *engine);
    int EVP_DigestUpdate(EVP_MD_CTX *context, const void *bytes, size_t count);
    int EVP_DigestFinal_ex(EVP_MD_CTX *context, unsigned char *digest, unsigned int *count);
]]
local libcrypto = ffi.C

json.decode_invalid_numbers(false)

-- The signs of a key that the pages make, and its length; the shortest text of base64 that can hold one.
local SIGNS, MADE, PACKED = "0123456789abcdefghjkmnpqrstvwxyz", 26, 35
-- From this length on a text is searched for the sender's own key: a shorter one is a word of many texts.
local SEARCHED = 8
-- How much a line has of a path, of a body that was refused, and of each part of a reply.
local PATH, REFUSED, REPLY = 512, 2048, 2048
local HIDDEN = "(key)"
-- What the desk reads of a caller, and the name that the pages send beside it.
local CALLER = { "id", "role", "subject", "digest", "name" }

-- The first parts of the paths that have to do with riders, callers or vans. (The last ones are asked for where the desk is away.)
local RECORDED = {}
for name in ("callers policy places places.json routes vehicles riders trips days staff own drivers record tally away.html away.json"):gmatch("%S+") do
    RECORDED[name] = true
end

-- Classes of bytes.

local function class(signs)
    local found = {}
    for at = 0, 255 do found[at] = find(signs, char(at), 1, true) ~= nil end
    return found
end

local DIGITS, LETTERS, BLANKS = "0123456789", "abcdefghijklmnopqrstuvwxyz", " \t\n\v\f\r+-"
local WORD = DIGITS .. LETTERS .. LETTERS:upper()
local IS_SIGN, IS_BLANK, IS_DIGIT, IS_WORD, IS_PACKED = class(SIGNS .. SIGNS:upper()), class(BLANKS), class(DIGITS), class(WORD), class(WORD .. "+/_-")
-- What may stand in a made key, also between its groups; what a plain path has; and what JSON has as it is.
local MAY_STAND, IS_OF_PATH, IS_PLAIN, IS_ASCII = class(SIGNS .. SIGNS:upper() .. BLANKS), class(WORD .. "/._-"), {}, {}
for at = 0, 255 do
    MAY_STAND[at] = MAY_STAND[at] or at >= 0x80
    IS_ASCII[at] = at < 0x80
    IS_PLAIN[at] = at >= 0x20 and at <= 0x7e and at ~= 0x22 and at ~= 0x5c
end

local function is_all(class_of, text)
    for at = 1, #text do
        if not class_of[byte(text, at)] then return false end
    end
    return true
end

-- Whether so many bytes of a class stand in a row. (One in as many has to be of it.)
local function has_run(class_of, count, text)
    for at = count, #text, count do
        if class_of[byte(text, at)] then
            local from, to = at, at
            while from > 1 and class_of[byte(text, from - 1)] do from = from - 1 end
            while to < #text and class_of[byte(text, to + 1)] do to = to + 1 end
            if to - from + 1 >= count then return true end
        end
    end
    return false
end

-- How long the blank, plus or hyphen is that stands here, and 0 where none does. The blanks of other scripts count.
local function blank_at(text, at)
    local first, second, third = byte(text, at, at + 2)
    if not first then return 0 end
    if first < 0x80 then return IS_BLANK[first] and 1 or 0 end
    if first == 0xc2 then return second == 0xa0 and 2 or 0 end
    if not third then return 0 end
    local is_blank = first == 0xe2 and (second == 0x80 and (third <= 0x8a or third == 0xa8 or third == 0xa9 or third == 0xaf) or second == 0x81 and third == 0x9f)
        or first == 0xe1 and second == 0x9a and third == 0x80 or first == 0xe3 and second == 0x80 and third == 0x80
        or first == 0xef and second == 0xbb and third == 0xbf
    return is_blank and 3 or 0
end

-- Keys in texts.

-- Where a key as the pages make them has its last sign that begins here, or nil: 26 signs, in groups of five on a card.
local function made_end(text, at)
    for _ = 1, 5 do
        for _ = 1, 5 do
            if not IS_SIGN[byte(text, at)] then return nil end
            at = at + 1
        end
        for _ = 1, 3 do at = at + blank_at(text, at) end
    end
    return IS_SIGN[byte(text, at)] and not IS_WORD[byte(text, at + 1)] and at or nil
end

-- Whether what was found is a key: words and numbers in groups of five are none.
local function is_key(found)
    return is_all(IS_WORD, found) or find(found, "%d") ~= nil and find(found, "%a") ~= nil
end

-- Whether a made key may begin here. In a path it may stand right behind a sign in percent.
local function may_begin(text, at, is_path)
    return at == 1 or not IS_WORD[byte(text, at - 1)] or is_path and at > 3 and byte(text, at - 3) == 0x25
end

-- Whether what begins here is the number of a report, which has a key's shape and stays.
local function is_report(text, at)
    local before = sub(text, at - 4, at - 1)
    return before == "?id=" or before == "&id="
end

-- The text without each made key in it, anybody's.
local function without_made(text, is_path)
    local kept, from, at = {}, 1, 1
    while at <= #text - MADE + 1 do
        local finish = IS_SIGN[byte(text, at)] and may_begin(text, at, is_path) and made_end(text, at)
        if finish and is_key(sub(text, at, finish)) and not (is_path and is_report(text, at)) then
            kept[#kept + 1] = sub(text, from, at - 1)
            from = finish + 1
            at = from
        else
            at = at + 1
        end
    end
    kept[#kept + 1] = sub(text, from)
    return concat(kept, HIDDEN)
end

-- Where the sender's own made key has its last sign that begins here, or nil: it may be typed with capitals, hyphens and blanks.
local function own_end(text, at, own)
    for place = 1, MADE do
        local blank = place > 1 and blank_at(text, at) or 0
        while blank > 0 do
            at = at + blank
            blank = blank_at(text, at)
        end
        if lower(sub(text, at, at)) ~= sub(own, place, place) then return nil end
        at = at + 1
    end
    return at - 1
end

local function without_own_made(text, own)
    local kept, from, at = {}, 1, 1
    while at <= #text - MADE + 1 do
        local finish = own_end(text, at, own)
        if finish then
            kept[#kept + 1] = sub(text, from, at - 1)
            from = finish + 1
        end
        at = finish and from or at + 1
    end
    kept[#kept + 1] = sub(text, from)
    return concat(kept, HIDDEN)
end

-- The key's 26 signs where the pages made it, else nil.
local function made_of(key)
    local bare = lower((gsub(key, "[%s-]", "")))
    return #bare == MADE and is_all(IS_SIGN, bare) and bare or nil
end

-- The text without this word of it.
local function without_word(text, word)
    local kept, from, at = {}, 1, find(text, word, 1, true)
    while at do
        kept[#kept + 1] = sub(text, from, at - 1)
        from = at + #word
        at = find(text, word, from, true)
    end
    kept[#kept + 1] = sub(text, from)
    return concat(kept, HIDDEN)
end

local function is_searched(key)
    return key and #key >= SEARCHED
end

-- The text without the sender's own key.
local function without_own(key, text, may_have_made)
    if not is_searched(key) then return text end
    local own = may_have_made and made_of(key)
    if own then return without_own_made(text, own) end
    return find(text, key, 1, true) and without_word(text, key) or text
end

-- The text without what stands in it as a key, as it is spelled here.
local function without_spelled(key, text, is_path)
    local may_have_made = #text >= MADE and has_run(MAY_STAND, MADE, text)
    return without_own(key, may_have_made and without_made(text, is_path) or text, may_have_made)
end

local function sign_of(digits)
    return char(tonumber(digits, 16))
end

-- The text with plain signs in place of those in percent. (A sign may be in percent twice over.)
local function unpercented(text)
    for _ = 1, 3 do text = gsub(text, "%%(%x%x)", sign_of) end
    return text
end

-- A sign in UTF-8. (Half a pair of JSON's is no sign of a key.)
local function utf8_of(digits)
    local code = tonumber(digits, 16)
    if code < 0x80 then return char(code) end
    if code < 0x800 then return char(0xc0 + floor(code / 0x40), 0x80 + code % 0x40) end
    return char(0xe0 + floor(code / 0x1000), 0x80 + floor(code / 0x40) % 0x40, 0x80 + code % 0x40)
end

-- The text with plain signs in place of those that JSON escapes.
local function unescaped(text)
    return (gsub(text, "\\u(%x%x%x%x)", utf8_of))
end

-- Whether a text in base64 holds a key, wherever in it that begins.
local function is_packed(key, run)
    local plain = gsub(gsub(run, "-", "+"), "_", "/")
    for from = 1, 4 do
        local part = sub(plain, from)
        local inside = ngx.decode_base64(#part % 4 == 1 and sub(part, 1, -2) or part)
        if inside and without_spelled(key, inside) ~= inside then return true end
    end
    return false
end

local function without_packed_runs(key, text, least)
    local kept, from = {}, 1
    local at, finish = find(text, "[%w+/_-]+")
    while at do
        if finish - at + 1 >= least and is_packed(key, sub(text, at, finish)) then
            kept[#kept + 1] = sub(text, from, at - 1)
            from = finish + 1
        end
        at, finish = find(text, "[%w+/_-]+", finish + 1)
    end
    kept[#kept + 1] = sub(text, from)
    return concat(kept, HIDDEN)
end

-- The text without what holds a key in base64.
local function without_packed(key, text)
    local least = is_searched(key) and min(PACKED, ceil(#key * 4 / 3)) or PACKED
    return #text >= least and has_run(IS_PACKED, least, text) and without_packed_runs(key, text, least) or text
end

-- The text without keys as they are spelled after it was changed so; else the text.
local function without_behind(key, text, plain_of, is_path)
    local plain = plain_of(text)
    local clean = without_spelled(key, plain, is_path)
    return clean ~= plain and clean or nil
end

-- The text without anything that could be a key, also where its signs are in percent, escaped as in JSON, or in base64.
local function without(key, text)
    local told = without_spelled(key, text)
    if find(told, "%", 1, true) then told = without_behind(key, told, unpercented) or told end
    if find(told, "\\u", 1, true) then told = without_behind(key, told, unescaped) or told end
    return without_packed(key, told)
end

-- The path without keys, also where it has their signs in percent: then it is written as plain signs.
local function without_keys(key, path)
    local clean = find(path, "%", 1, true) and without_behind(key, path, unpercented, true)
    return without_packed(key, clean or without_spelled(key, path, true))
end

-- JSON.

local function is_more(it)
    return it and it >= 0x80 and it <= 0xbf
end

-- How many bytes the sign in UTF-8 has that begins here, and its number; nil where the bytes are none.
local function sign_at(text, at)
    local first, second, third, fourth = byte(text, at, at + 3)
    if first < 0x80 then return 1, first end
    if first < 0xc2 or first > 0xf4 or not is_more(second) then return nil end
    if first < 0xe0 then return 2, (first - 0xc0) * 0x40 + second - 0x80 end
    -- (none in more bytes than it takes, no half of a pair, none beyond the last)
    if not is_more(third) or first == 0xe0 and second < 0xa0 or first == 0xed and second > 0x9f then return nil end
    if first < 0xf0 then return 3, (first - 0xe0) * 0x1000 + (second - 0x80) * 0x40 + third - 0x80 end
    if not is_more(fourth) or first == 0xf0 and second < 0x90 or first == 0xf4 and second > 0x8f then return nil end
    return 4, (first - 0xf0) * 0x40000 + (second - 0x80) * 0x1000 + (third - 0x80) * 0x40 + fourth - 0x80
end

-- Whether the bytes are text in UTF-8.
local function is_text(text)
    if is_all(IS_ASCII, text) then return true end
    local at = 1
    while at <= #text do
        local count = sign_at(text, at)
        if not count then return false end
        at = at + count
    end
    return true
end

-- The text with each sign beyond ASCII as JSON escapes it. What is no sign of UTF-8 stands as the sign for that.
local function escaped(text)
    local kept, at = {}, 1
    while at <= #text do
        local count, code = sign_at(text, at)
        if not count then
            kept[#kept + 1] = "\\ufffd"
        elseif code < 0x80 then
            kept[#kept + 1] = sub(text, at, at)
        elseif code < 0x10000 then
            kept[#kept + 1] = format("\\u%04x", code)
        else
            kept[#kept + 1] = format("\\u%04x\\u%04x", 0xd800 + floor((code - 0x10000) / 0x400), 0xdc00 + code % 0x400)
        end
        at = at + (count or 1)
    end
    return concat(kept)
end

-- The text as it stands between JSON's quotation marks, in ASCII, so that each tool reads the line as one.
local function inside(text)
    if is_all(IS_PLAIN, text) then return text end
    local told = json.encode(text)
    return sub(is_all(IS_ASCII, told) and told or escaped(told), 2, -2)
end

-- A caller's record as the desk reads it. A digest that is none could be a key, and is left out.
local function callers_body(sent)
    local fields, told = json.decode(sent), {}
    if type(fields) ~= "table" then return "{}" end
    local digest = fields.digest
    if not (type(digest) == "string" and #digest == 64 and find(digest, "^%x+$")) then fields.digest = nil end
    for _, name in ipairs(CALLER) do
        if fields[name] ~= nil then told[#told + 1] = '"' .. name .. '":' .. json.encode(fields[name]) end
    end
    return "{" .. concat(told, ",") .. "}"
end

-- The fields of the body of a write, with a comma before each: text where its bytes are UTF-8, else base64.
local function body_fields(key, sent, uri, status)
    if not sent or sent == "" then return "" end
    if uri == "/callers" then return ',"body":"' .. inside(without(key, callers_body(sent))) .. '"' end
    -- A write that the desk refused did nothing: a start of it is enough.
    local kept = status >= 400 and status < 499 and sub(sent, 1, REFUSED) or sent
    local clean, told = without(key, kept), nil
    if is_text(kept) then
        told = ',"body":"' .. inside(clean) .. (clean ~= kept and '","hidden":true' or '"')
    elseif clean == kept and not (is_searched(key) and find(sent, key, 1, true)) then
        told = ',"body64":"' .. ngx.encode_base64(kept) .. '"'
    else
        told = ',"hidden":true'
    end
    return #kept < #sent and told .. ',"bytes":' .. #sent or told
end

-- Fields of a line.

local sha256, context, digest = libcrypto.EVP_MD_fetch(nil, "SHA256", nil), libcrypto.EVP_MD_CTX_new(), ffi.new("uint8_t[32]")
local KNOWN = 1000
local PAIRS, THOUSANDTHS, known, known_count = {}, {}, {}, 0
for at = 0, 255 do PAIRS[at] = format("%02x", at) end
for at = 0, 999 do THOUSANDTHS[at] = format(".%03d", at) end

local function made_digits(key)
    libcrypto.EVP_DigestInit_ex(context, sha256, nil)
    libcrypto.EVP_DigestUpdate(context, key, #key)
    if libcrypto.EVP_DigestFinal_ex(context, digest, nil) ~= 1 then error("no digest") end
    local told = PAIRS[digest[0]] .. PAIRS[digest[1]] .. PAIRS[digest[2]] .. PAIRS[digest[3]] .. PAIRS[digest[4]] .. PAIRS[digest[5]]
    return told
end

-- The digits of a key's SHA-256 that name its caller. Those of some keys stay in memory, since to make them costs most.
local function digits_of(key)
    local told = known[key]
    if told then return told end
    told = made_digits(key)
    if known_count >= KNOWN then known, known_count = {}, 0 end
    known[key], known_count = told, known_count + 1
    return told
end

-- The key as the desk reads it, without the blanks at its ends; nil where there is none.
local function key_of(sent)
    if not sent or sent == "" then return nil end
    local first, last = byte(sent, 1), byte(sent, -1)
    if first ~= 0x20 and first ~= 0x09 and last ~= 0x20 and last ~= 0x09 then return sent end
    local key = gsub(gsub(sent, "^[ \t]+", ""), "[ \t]+$", "")
    return key ~= "" and key or nil
end

-- Seconds as text; given are thousandths.
local function seconds_of(thousandths)
    local whole = floor(thousandths / 1000)
    return whole .. THOUSANDTHS[thousandths - whole * 1000]
end

-- The path before what stands behind a "?".
local function before_question(path)
    local at = find(path, "?", 1, true)
    return at and sub(path, 1, at - 1) or path
end

-- The path as it was sent, without keys, and a field with the file that nginx took it for where that differs.
local function path_of(key, sent, uri)
    local start = sub(uri, 1, 7)
    local is_whole = start == "/tally/" or start == "/record"
    local path = sub(without_keys(key, is_whole and sent or before_question(sent)), 1, PATH)
    -- (where the desk is away, nginx reads another page)
    if uri == path or uri == before_question(path) or uri == "/away.html" or uri == "/away.json" then return path, "" end
    return path, ',"read":"' .. inside(sub(without_keys(key, uri), 1, PATH)) .. '"'
end

local function number_field(number)
    if not number then return "" end
    return number ~= "" and #number <= 10 and is_all(IS_DIGIT, number) and ',"number":"' .. number .. '"' or ',"number":"?"'
end

local function method_of(sent)
    if sent == "GET" or sent == "POST" then return sent end
    return #sent <= 10 and find(sent, "^[A-Z]+$") and sent or "?"
end

local function given(v)
    return v.http_desk_key, v.http_desk_number, v.request_uri, v.uri, get_method(), ngx.status, floor(now() * 1000 + 0.5), floor(start_time() * 1000 + 0.5)
end

local function given_of_write(v)
    return v.request_body, v.desk_reply
end

local function joined(finish, door, from, who, number, method, path, read, status, took, more)
    local told = '{"at":"' .. seconds_of(finish) .. '","door":"' .. door .. '","from":"' .. from .. '","who":"' .. who .. '"' .. number .. ',"method":"' .. method
        .. '","path":"' .. path .. '"' .. read .. ',"status":' .. status .. ',"took":' .. seconds_of(took) .. more .. "}"
    return told
end

local function write_fields(v, key, uri, status)
    local body, reply = given_of_write(v)
    local told = body_fields(key, body, uri, status)
    return reply and reply ~= "" and told .. ',"reply":"' .. inside(reply) .. '"' or told
end

local function line_of(v, door, from)
    local sent_key, number, sent, uri, method, status, finish, start = given(v)
    local key = key_of(sent_key)
    local path, read = path_of(key, sent or "", uri or "")
    local more = method == "POST" and status ~= 401 and status ~= 429 and write_fields(v, key, uri, status) or ""
    local told = joined(finish, door, inside(from), key and digits_of(key) or "-", number_field(number), method_of(method), inside(path), read, status,
        max(0, finish - start), more)
    return told
end

local function set_line(v, told)
    v.desk_line = told
end

-- Makes the line. What stays of one that could not be made: that there was a request, and why.
local function make_line(v, door, from)
    local is_made, told = pcall(line_of, v, door, from)
    if not is_made then
        told = '{"at":"' .. seconds_of(floor(now() * 1000 + 0.5)) .. '","from":"' .. inside(from) .. '","error":"' .. inside(sub(tostring(told), 1, 200)) .. '"}'
    end
    set_line(v, told)
end

-- What a report says without keys. Each value stays in percent, and the number of the report as it is.
local function report_of(key, args)
    local kept = {}
    for field in (args .. "&"):gmatch("([^&]*)&") do
        local name, value = field:match("^([^=]*=?)(.*)$")
        local clean = name == "id=" and without_own(key, value, true) or without(key, value)
        kept[#kept + 1] = clean == value and field or name .. ngx.escape_uri(clean)
    end
    return concat(kept, "&")
end

-- What deploy/desk.nginx calls.

local journal = {}

local function is_recorded(uri)
    local slash = find(uri, "/", 2, true)
    return RECORDED[sub(uri, 2, slash and slash - 1 or #uri)]
end

local function is_answered(took)
    return took and took ~= "" and took ~= "-"
end

-- A request that the site answered by itself: an agency's file, or a refusal. What the desk answered has its line at the door.
function journal.site()
    local v, status = ngx.var, ngx.status
    -- (these it answers before it counts requests, to whoever asks)
    if status == 400 or status == 405 or status == 413 or status == 429 then return end
    if not is_answered(v.upstream_header_time) and is_recorded(v.uri or "") then make_line(v, "site", v.remote_addr) end
end

-- A question to the record.
function journal.kept()
    make_line(ngx.var, "site", ngx.var.remote_addr)
end

-- A report: also what the tally has of it.
function journal.report()
    local v = ngx.var
    local is_made, told = pcall(report_of, key_of(v.http_desk_key), v.args or "")
    v.desk_told = is_made and told or ""
    make_line(v, "site", v.remote_addr)
end

local function asked(v)
    return v.http_desk_key, v.desk_from, v.request_uri, get_method(), ngx.status
end

local function asked_of_write(v)
    return v.http_desk_number, v.request_body, v.desk_reply, floor(now() * 1000 + 0.5), floor(start_time() * 1000 + 0.5)
end

local function set_reader(v, who)
    v.desk_reader = who
end

-- Whether a path stands in the line as it was sent: nginx reads it as the same one, and it has no key.
local function is_plain_path(key, sent)
    return is_all(IS_OF_PATH, sent) and #sent <= PATH and not find(sent, "//", 1, true) and not find(sent, "/.", 1, true)
        and without_spelled(key, sent) == sent and without_packed(key, sent) == sent
end

-- Whether a body and a reply stand in the line as they were sent, but for what JSON escapes.
local function is_plain_body(key, number, body, reply)
    return number and body and reply and number ~= "" and #number <= 10 and #body <= REFUSED and reply ~= "" and is_all(IS_DIGIT, number)
        and is_all(IS_ASCII, body) and is_all(IS_ASCII, reply) and without(key, body) == body
end

-- Makes the line of a plain write, and says whether it is one.
local function make_plain_line(v, key, from, sent, status)
    if status == 401 or sent == "/callers" then return false end
    local number, body, reply, finish, start = asked_of_write(v)
    if not is_plain_body(key, number, body, reply) then return false end
    set_line(v, joined(finish, "site", from, digits_of(key), ',"number":"' .. number .. '"', "POST", sent, "", status, max(0, finish - start),
        ',"body":' .. json.encode(body) .. ',"reply":' .. json.encode(reply)))
    return true
end

-- Makes the line of a plain request, or leaves that of a read to nginx; and says whether it is one.
local function is_made_plain(v, key, from, sent, method, status)
    if not (key and from and from ~= "" and sent and status > 99 and is_all(IS_PLAIN, from) and is_plain_path(key, sent)) then return false end
    if method == "POST" then return make_plain_line(v, key, from, sent, status) end
    if method ~= "GET" then return false end
    set_reader(v, digits_of(key))
    return true
end

-- A request to the desk by the site, which says whose it is. What the site itself asks about a key has "-" for its address.
function journal.door()
    local v = ngx.var
    local sent_key, from, sent, method, status = asked(v)
    if from == "-" or status == 429 then return end
    local is_done, is_made = pcall(is_made_plain, v, key_of(sent_key), from, sent, method, status)
    if not (is_done and is_made) then make_line(v, "site", from ~= "" and from or v.remote_addr) end
end

-- A request to the desk by a program of this machine.
function journal.own()
    make_line(ngx.var, "own", ngx.var.remote_addr)
end

-- A part of what the desk answers to a write.
function journal.reply()
    local part = ngx.arg[1]
    if not part or part == "" then return end
    local so_far = ngx.var.desk_reply or ""
    if #so_far < REPLY then ngx.var.desk_reply = so_far .. sub(part, 1, REPLY) end
end

-- (these have loops behind what they call)
for _, it in ipairs { line_of, write_fields, make_line, make_plain_line, is_made_plain, journal.door, journal.site } do jit.off(it) end

package.loaded.desk_journal = journal
