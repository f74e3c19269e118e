/*
 * The certificate reader as a C program meets it: what it reads, what it refuses and at which offset, what it writes to places and
 * what it leaves as it was. Certificates and places each end where their memory ends. That it answers so for every input is the
 * proofs' matter.
 */
#define _DEFAULT_SOURCE /* for memory() of expect.h */
#include <inttypes.h>
#include <stdio.h>
#include <string.h>

#include "der.h"
#include "expect.h"
#include "tweedstork.h"

#define MOST_PLACES 1024

/* ---- the memory that is lent ---- */

/* The same bytes at the end of memory; no bytes are NULL. */
static const uint8_t *at_end(const uint8_t *bytes, size_t length)
{
    static uint8_t *room;

    if (room == NULL)
        room = memory(MOST_DER);
    return length == 0 ? NULL : memcpy(room + MOST_DER - length, bytes, length);
}

/* Places end where their memory ends; before them, and in them before a call, is one kind of byte. */
enum { PLACES = MOST_PLACES + 200, FILLED = 0xee };
static uint8_t *places;

static uint8_t *places_of(size_t room)
{
    if (places == NULL)
        places = memory(PLACES);
    memset(places, FILLED, PLACES);
    return room == 0 ? NULL : places + PLACES - room;
}

/* Do the places of these names stand at the front, and is all else as it was? */
static int holds_just(size_t room, const struct place *names, size_t count)
{
    static uint8_t wanted[PLACES];

    memset(wanted, FILLED, PLACES);
    for (size_t i = 0; i < count; i++) {
        uint8_t *to = wanted + PLACES - room + 16 * i;

        memset(to, 0, 16);
        tweedstork_put_number(to, 1, (uint32_t)names[i].start);
        tweedstork_put_number(to, 3, (uint32_t)names[i].length);
    }
    return memcmp(places, wanted, PLACES) == 0;
}

/* ---- the reader ---- */

/* Asks with places of this size, and sees that they hold just what they should and that the certificate is as it was. */
static void asks(const char *name, const struct der *der, size_t room, struct tweedstork_certificate_answer wanted)
{
    const uint8_t *bytes = at_end(der->bytes, der->length);
    struct tweedstork_certificate_answer answer = tweedstork_read_certificate(bytes, der->length, places_of(room), room);

    if (memcmp(&answer, &wanted, sizeof answer) != 0)
        printf("%s: expected %" PRIu64 " at %" PRIu64 ", got %" PRIu64 " at %" PRIu64 ", in places of %zu\n", name, wanted.number,
               wanted.offset, answer.number, answer.offset, room);
    expect(name, memcmp(&answer, &wanted, sizeof answer) == 0);
    expect(name, holds_just(room, der->names, (size_t)wanted.length / 16));
    expect(name, der->length == 0 || memcmp(bytes, der->bytes, der->length) == 0);
}

/* Nothing but a number and, under 90, an offset. */
static struct tweedstork_certificate_answer refusal(uint64_t number, size_t offset)
{
    struct tweedstork_certificate_answer answer = {0, 0, 0, 0, 0, 0, 0, 0, 0};

    answer.number = number;
    answer.offset = offset;
    return answer;
}

/* Read with what is marked, where there is room for the places. */
static void reads(const char *name, const char *text)
{
    const struct der *der = der_of(text);
    size_t length = 16 * der->name_count;
    const size_t more[] = {0, 1, 15, 16, 200}, less[] = {1, 15, 16, length};
    struct tweedstork_certificate_answer wanted = {
        15, length, 0, der->key.start, der->key.length, der->name_count, der->has_common_name ? TWEEDSTORK_YES : TWEEDSTORK_NO,
        der->common_name.start, der->common_name.length};

    if (der->key.length == 0 || der->has_fault)
        der_error(text);
    for (size_t i = 0; i < sizeof more / sizeof more[0]; i++)
        asks(name, der, length + more[i], wanted);
    for (size_t i = 0; i < sizeof less / sizeof less[0] && length > 0; i++)
        asks(name, der, length - less[i], refusal(83, 0));
}

/* Refused where the mark is, whatever the room. */
static void refuses(const char *name, const char *text)
{
    static const size_t rooms[] = {0, 1, 16, MOST_PLACES, PLACES};
    const struct der *der = der_of(text);

    if (!der->has_fault)
        der_error(text);
    for (size_t i = 0; i < sizeof rooms / sizeof rooms[0]; i++)
        asks(name, der, rooms[i], refusal(90, der->fault));
}

static void names(void)
{
    reads("no extensions", SUBJECT(""));
    reads("no version and no extensions", "30(30(02:01 " MIDDLE "30() " KEY END ")");
    reads("one DNS-ID", NAMED("@82'mail.example.com'"));
    reads("two DNS-IDs", NAMED("@82'mail.example.com' @82'mx.example.net'"));
    reads("an empty DNS-ID", NAMED("@82''"));
    reads("empty DNS-IDs", NAMED("@82'' @82'a' @82'' @82''"));
    reads("DNS-IDs of any bytes", NAMED("@82:00 @82:FF00FF @82'*.*' @82:3080"));
    reads("the same DNS-ID twice", NAMED("@82'a.example' @82'a.example'"));
    reads("no GeneralName", NAMED(""));
    reads("no extension", EXTENDED(""));
    reads("every kind of name", NAMED("A0(06:2A A0(0C'x')) 81'a@b.example' @82'a.example' A3(30()) A4(30(31())) A5(A1(0C'x')) 86'x:y' "
                                      "@82'b.example' 87:C0000201 88:2A"));
    reads("kinds that hold anything", NAMED("A0() A3(02:01 82'no.name') A5(=0000) A4(30(05: 82'no.name' A0(=0000))) @82'a'"));
    reads("critical or not", EXTENDED("30(06:2A 04:) 30(06:551D11 01:FF 04(30(@82'a'))) 30(06:551D0F 01:00 04:FF)"));
    reads("extensions before and behind", EXTENDED("30(06:551D12 04(30(82'a'))) " SAN("@82'b'") "30(06:551D1100 04(30(82'c'))) 30(06: 04:)"));
    reads("strings that aren't looked into", EXTENDED("30(06:2A 04:3080) " SAN("@82'a'") "30(06:551D 04:1F)"));
}

static void common_names(void)
{
    reads("a common name", SUBJECT(CN("#0C'mail.example.com'")));
    reads("a common name and DNS-IDs", CERTIFICATE(CN("#13'Mail'"), EXTENSIONS(SAN("@82'a.example' @82'b.example'"))));
    reads("the last of several", SUBJECT(CN("0C'first'") CN("0C'second'") CN("#0C'third'")));
    reads("the last of several in one set", SUBJECT("31(30(06:550403 0C'a') 30(06:55040A 0C'b') 30(06:550403 #0C'c') 30(06:55040A 0C'd'))"));
    reads("the last of several is empty", SUBJECT(CN("0C'first'") CN("#0C''")));
    reads("an empty common name", SUBJECT(CN("#05:")));
    reads("common names of other types", SUBJECT(CN("0C'a'") CN("1E:0061") CN("#DE:6100")));
    reads("a common name that is constructed", SUBJECT(CN("#30(0C'a' 0C'b')")));
    reads("other attributes", SUBJECT("31(30(06:55040A 0C'Test')) 31() 31(30(06:55040300 0C'a') 30(06:5504 0C'b') 30(06: 05:))"));
    reads("a common name in the issuer", "30(30(" VERSION "02:01 30() 30(" CN("0C'a'") ") 30() 30() " KEY END ")");
    reads("an empty set", SUBJECT("31() " CN("#0C'a'") "31()"));
}

static void other_fields(void)
{
    reads("issuerUniqueID", CERTIFICATE("", "81:00"));
    reads("subjectUniqueID", CERTIFICATE("", "82:00FF"));
    reads("both unique ids", CERTIFICATE("", "81: 82: "));
    reads("all fields", CERTIFICATE("31() " CN("#0C'a'"), "81:0001 82:0002 " EXTENSIONS(SAN("@82'b' 87:00 @82'c'") "30(06:2A 04:)")));
    reads("a long serial number", "30(30(02:00FFFFFFFFFFFFFFFFFFFFFFFFFFFFFFFFFFFFFFFF 30() 30() 30() 30() " KEY END ")");
    reads("an empty serial number", "30(30(A0(02:) 02: 30() 30() 30() 30() " KEY END ")");
    reads("free fields hold anything", "30(30(" VERSION "02:01 30(05: 30()) 30(02:01 82'a' =0000) 30(A0(81:)) 30() $30(02:01 02:02 31(30())) "
                                       EXTENSIONS(SAN("@82'a'")) ") 30(01:FF 82'b') 03:)");
}

/* Lengths on both sides of each length of a length, in names and in what isn't read. */
static void lengths(void)
{
    static const long sizes[] = {0, 1, 126, 127, 128, 129, 254, 255, 256, 257, 65535, 65536, 65537};
    char text[1000], name[60];

    for (size_t i = 0; i < sizeof sizes / sizeof sizes[0]; i++) {
        long size = sizes[i];

        snprintf(name, sizeof name, "parts of %ld bytes", size);
        snprintf(text, sizeof text, SUBJECT(CN("#0C*%ld")), size);
        reads(name, text);
        snprintf(text, sizeof text, NAMED("@82*%ld @82'a'"), size);
        reads(name, text);
        snprintf(text, sizeof text, EXTENDED("30(06:2A 04*%ld) " SAN("@82'a'")), size);
        reads(name, text);
        snprintf(text, sizeof text, "30(30(02*%ld " MIDDLE "30() $30(30() 03*%ld)) 30() 03*%ld)", size, size, size);
        reads(name, text);
    }
}

/* A certificate with so many DNS-IDs. */
static const char *with_names(int count, const char *fault)
{
    static char text[20000];
    int length = snprintf(text, sizeof text, "30(30(" BEFORE_SUBJECT "30() " KEY "A3(30(30(06:551D11 04(30(");

    for (int i = 0; i < count; i++)
        length += snprintf(text + length, sizeof text - (size_t)length, "@82'n%d' ", i);
    snprintf(text + length, sizeof text - (size_t)length, ")))))" END "%s)", fault);
    return text;
}

/* Up to 64 DNS-IDs; 91 for more, after 90 and before 83. */
static void counts(void)
{
    static const size_t rooms[] = {0, 16, MOST_PLACES - 1, MOST_PLACES, PLACES};
    static const int many[] = {65, 66, 128, 256, 1000};

    expect("the room for 64 places", TWEEDSTORK_PLACES_ROOM == MOST_PLACES && MOST_PLACES == 64 * 16);
    reads("63 DNS-IDs", with_names(63, ""));
    reads("64 DNS-IDs", with_names(64, ""));
    for (size_t i = 0; i < sizeof many / sizeof many[0]; i++) {
        for (size_t k = 0; k < sizeof rooms / sizeof rooms[0]; k++)
            asks("over 64 DNS-IDs", der_of(with_names(many[i], "")), rooms[k], refusal(91, 0));
        refuses("over 64 DNS-IDs and a fault behind them", with_names(many[i], " !05:"));
    }
    refuses("64 DNS-IDs and a fault behind them", with_names(64, " !05:"));
}

struct fault {
    const char *name, *text;
};

/* A header of another form, wherever it stands; and an element that runs past what holds it. */
static const struct fault headers[] = {
    {"no certificate, as NULL", "!"},
    {"a tag alone", "!=30"},
    {"a length cut off", "!=3082"},
    {"half a length", "!=308201"},
    {"an indefinite length", "!=30800000"},
    {"a length of zero bytes in front", "!=30820001FF"},
    {"127 in the long form", "!=30817F"},
    {"0 in the long form", "!=308100"},
    {"255 in two bytes", "!=308200FF"},
    {"the reserved length", "!=30FF"},
    {"127 bytes of length", "!=30FF0000000000000000"},
    {"a length of 64 bits", "!=3088FFFFFFFFFFFFFFFF"},
    {"a length over 64 bits", "!=30890100000000000000020000"},
    {"a length of two bytes over 64 bits", "!=308A010000000000000000020000"},
    {"a length that goes round to the front", "30(30(" VERSION "!=0288FFFFFFFFFFFFFFF3 " MIDDLE "30() " OTHER_KEY END ")"},
    {"a length that goes round to the next", "30(30(" VERSION "!=028901000000000000000101 " MIDDLE "30() " OTHER_KEY END ")"},
    {"a length of 32 bits", "!=3084FFFFFFFF"},
    {"one byte too many", "!=3001"},
    {"a tag of two bytes", "!=3F0100"},
    {"a tag of several bytes", "!=3F810100"},
    {"a long tag alone", "!=3F"},
    {"a primitive sequence", "!10:"},
    {"another certificate", "!31()"},
    {"TBSCertificate too long", "30(!=3001)"},
    {"TBSCertificate's header cut off", "30(!=30)"},
    {"serial number, long form", "30(30(" VERSION "!=02810101 " MIDDLE "30() " OTHER_KEY END ")"},
    {"serial number, indefinite", "30(30(" VERSION "!=02800000 " MIDDLE "30() " OTHER_KEY END ")"},
    {"serial number past the end", "30(30(" VERSION "!=0201))"},
    {"version past its tag", "30(30(A0(!=0202) 02:01 " MIDDLE "30() " OTHER_KEY END ")"},
    {"a long tag in the issuer", "30(30(" VERSION "02:01 30() 30(05: !=1F2100) 30() 30() " OTHER_KEY END ")"},
    {"an indefinite length in the issuer", "30(30(" VERSION "02:01 30() 30(31(!=30800000)) 30() 30() " OTHER_KEY END ")"},
    {"past its end in the key info", "30(30(" BEFORE_SUBJECT "30() 30(30() !=0302)" END ")"},
    {"a long form in the signature algorithm", "30(30(" BEFORE_SUBJECT "30() " OTHER_KEY ") 30(!=8181FF) 03:)"},
    {"signature past the end", "30(30(" BEFORE_SUBJECT "30() " OTHER_KEY ") 30() !=0301)"},
    {"a common name's value past its end", SUBJECT("31(30(06:550403 !=0C05))")},
    {"in a common name's value", SUBJECT(CN("30(!=05)"))},
    {"DNS-ID past its end", NAMED("82'a' !=8202")},
    {"DNS-ID, long form", NAMED("82'a' !=828101FF 82'b'")},
    {"DNS-ID, indefinite", NAMED("!=82800000")},
    {"GeneralNames past its string", EXTENDED("30(06:551D11 04(!=3001))")},
    {"GeneralNames, long form", EXTENDED("30(06:551D11 04(!=308100))")},
    {"in an otherName", NAMED("A0(06:2A A0(!=0C8100))")},
    {"in a directoryName", NAMED("A4(30(31(!=3080)))")},
    {"in an extension that isn't read", EXTENDED("30(06:2A !=0480)")},
};

/* Fields of Certificate and TBSCertificate that are missing, doubled, of another tag or in another order. */
static const struct fault misplaced_fields[] = {
    {"an empty certificate", "30(!)"},
    {"an empty TBSCertificate", "30(30(!) 30() 03:)"},
    {"another TBSCertificate", "30(!31() 30() 03:)"},
    {"no signature algorithm", "30(30(" BEFORE_SUBJECT "30() " OTHER_KEY ") !03:)"},
    {"no signature", "30(30(" BEFORE_SUBJECT "30() " OTHER_KEY ") 30() !)"},
    {"a constructed signature", "30(30(" BEFORE_SUBJECT "30() " OTHER_KEY ") 30() !23())"},
    {"another signature", "30(30(" BEFORE_SUBJECT "30() " OTHER_KEY ") 30() !04:)"},
    {"a field after the signature", "30(30(" BEFORE_SUBJECT "30() " OTHER_KEY ") 30() 03: !05:)"},
    {"a byte after the certificate", SUBJECT("") "!=00"},
    {"a certificate after the certificate", SUBJECT("") "!" SUBJECT("")},
    {"no version's number", "30(30(A0(!) 02:01 " MIDDLE "30() " OTHER_KEY END ")"},
    {"another version", "30(30(A0(!04:02) 02:01 " MIDDLE "30() " OTHER_KEY END ")"},
    {"two numbers of version", "30(30(A0(02:02 !02:02) 02:01 " MIDDLE "30() " OTHER_KEY END ")"},
    {"a primitive version", "30(30(!80:02 02:01 " MIDDLE "30() " OTHER_KEY END ")"},
    {"version twice", "30(30(" VERSION "!" VERSION "02:01 " MIDDLE "30() " OTHER_KEY END ")"},
    {"no serial number", "30(30(" VERSION "!" MIDDLE "30() " OTHER_KEY END ")"},
    {"serial number twice", "30(30(" VERSION "02:01 !02:01 " MIDDLE "30() " OTHER_KEY END ")"},
    {"a constructed serial number", "30(30(" VERSION "!22() " MIDDLE "30() " OTHER_KEY END ")"},
    {"version after the serial number", "30(30(02:01 !" VERSION MIDDLE "30() " OTHER_KEY END ")"},
    {"another signature field", "30(30(02:01 !31() 30() 30() 30() 30()" END ")"},
    {"another issuer", "30(30(02:01 30() !31() 30() 30() 30()" END ")"},
    {"another validity", "30(30(02:01 30() 30() !31() 30() 30()" END ")"},
    {"another subject", "30(30(02:01 30() 30() 30() !31() 30()" END ")"},
    {"another key info", "30(30(02:01 30() 30() 30() 30() !31()" END ")"},
    {"no key info", "30(30(02:01 30() 30() 30() 30() !)" " 30() 03:)"},
    {"no key info before the extensions", "30(30(02:01 30() 30() 30() 30() !A3(30())) 30() 03:)"},
    {"a second key info", CERTIFICATE("", "!30()")},
    {"unique ids in another order", CERTIFICATE("", "82: !81:")},
    {"issuerUniqueID twice", CERTIFICATE("", "81: !81:")},
    {"subjectUniqueID twice", CERTIFICATE("", "82: !82:")},
    {"a constructed issuerUniqueID", CERTIFICATE("", "!A1(03:00)")},
    {"a constructed subjectUniqueID", CERTIFICATE("", "!A2(03:00)")},
    {"unique id after the extensions", CERTIFICATE("", "A3(30()) !81:")},
    {"extensions twice", CERTIFICATE("", "A3(30()) !A3(30())")},
    {"primitive extensions", CERTIFICATE("", "!83:3000")},
    {"a field of another number", CERTIFICATE("", "!A4()")},
    {"an empty extensions tag", CERTIFICATE("", "A3(!)")},
    {"extensions that are no list", CERTIFICATE("", "A3(!31())")},
    {"two lists of extensions", CERTIFICATE("", "A3(30() !30())")},
};

/* The same in the subject, in extensions and in GeneralNames. */
static const struct fault misplaced_parts[] = {
    {"a subject of no sets", SUBJECT("!30(06:550403 0C'a')")},
    {"a set of no sequences", SUBJECT("31(30(06:2A 05:) !06:550403 0C'a')")},
    {"a primitive set", SUBJECT("!11:")},
    {"an empty attribute", SUBJECT("31(30(!))")},
    {"an attribute of another type", SUBJECT("31(30(!0C'a' 06:550403))")},
    {"an attribute without a value", SUBJECT("31(30(06:550403 !))")},
    {"an attribute with two values", SUBJECT("31(30(06:550403 0C'a' !0C'b'))")},
    {"a value of the subject's own", SUBJECT(CN("0C'a'") "!0C'b'")},
    {"an extension that is none", EXTENDED("!31()")},
    {"an empty extension", EXTENDED("30(!)")},
    {"an extension without an id", EXTENDED("30(!04:)")},
    {"an extension without a value", EXTENDED("30(06:2A !)")},
    {"critical and no value", EXTENDED("30(06:2A 01:FF !)")},
    {"critical twice", EXTENDED("30(06:2A 01:FF !01:FF 04:)")},
    {"critical after the value", EXTENDED("30(06:2A 04: !01:FF)")},
    {"an extension with two values", EXTENDED("30(06:2A 04: !04:)")},
    {"an extension with a constructed value", EXTENDED("30(06:2A !24(04:))")},
    {"critical of another tag", EXTENDED("30(06:2A !02:01 04:)")},
    {"subjectAltName without a value", EXTENDED("30(06:551D11 !)")},
    {"an empty subjectAltName", EXTENDED("30(06:551D11 04(!))")},
    {"subjectAltName of another tag", EXTENDED("30(06:551D11 04(!31()))")},
    {"bytes behind GeneralNames", EXTENDED("30(06:551D11 04(30(82'a') !=00))")},
    {"two GeneralNames", EXTENDED("30(06:551D11 04(30(82'a') !30(82'b')))")},
    {"a second subjectAltName", EXTENDED(SAN("82'a'") "30(06:2A 04:) !" SAN("82'b'"))},
    {"a second subjectAltName that is broken", EXTENDED(SAN("82'a'") "!30(06:551D11 04:3080)")},
    {"a second subjectAltName without a value", EXTENDED(SAN("") "!30(06:551D11)")},
    {"a second and a third subjectAltName", EXTENDED(SAN("") "!" SAN("") SAN(""))},
    {"a first subjectAltName that is broken", EXTENDED("30(06:551D11 04(!=3080)) " SAN(""))},
    {"a primitive otherName", NAMED("82'a' !80:")},
    {"a constructed rfc822Name", NAMED("!A1()")},
    {"a constructed DNS-ID", NAMED("82'a' !A2(82'b')")},
    {"a primitive x400Address", NAMED("!83:")},
    {"a primitive directoryName", NAMED("!84:")},
    {"an empty directoryName", NAMED("A4(!)")},
    {"another directoryName", NAMED("A4(!31())")},
    {"a directoryName of two names", NAMED("A4(30() !30())")},
    {"a primitive ediPartyName", NAMED("!85:")},
    {"a constructed URI", NAMED("!A6()")},
    {"a constructed address", NAMED("!A7()")},
    {"a constructed registeredID", NAMED("!A8()")},
    {"a name of another number", NAMED("!89:")},
    {"a name of another class", NAMED("!02:01")},
};

/* Of several faults the one at the lowest offset, whatever it is. */
static const struct fault first_faults[] = {
    {"misplaced, then a header", "30(30(" VERSION "!04:01 30(=3080) 30() 30() 30() 30()" END ")"},
    {"a header, then misplaced", "30(30(" VERSION "02:01 30(!=3080) 31() 30() 30() 30()" END ")"},
    {"misplaced, with a broken inside", "30(30(" VERSION "!31(=3080) 30() 30() 30() 30()" END ")"},
    {"an element's own header, then its inside", "30(30(" VERSION "!=0281FF" END ")"},
    {"a broken inside, then its end", "30(30(" VERSION "02:01 30(!=1F) 30()" END " =00)"},
    {"left-over bytes inside, then outside", SUBJECT("31(30(06:2A 05: !=00))") "=00"},
    {"a fault in the names, then in the signature", NAMED("82'a' !=82") "=00"},
    {"a second subjectAltName, then left-over bytes", EXTENDED(SAN("") "!" SAN("")) "=00"},
    {"a fault before a second subjectAltName", EXTENDED(SAN("") "30(!05:) " SAN(""))},
    {"a fault in the first of two", EXTENDED(SAN("!05:") SAN(""))},
    {"missing inside, before misplaced outside", "30(30(A0(!) 05:" END ")"},
    {"missing at the end of a holder", "30(30(" BEFORE_SUBJECT "30(31(30(06:550403 !)) =3080) " OTHER_KEY END ")"},
};

static void refuse_all(const struct fault *faults, size_t count)
{
    for (size_t i = 0; i < count; i++)
        refuses(faults[i].name, faults[i].text);
}

static void faults(void)
{
    refuse_all(headers, sizeof headers / sizeof headers[0]);
    refuse_all(misplaced_fields, sizeof misplaced_fields / sizeof misplaced_fields[0]);
    refuse_all(misplaced_parts, sizeof misplaced_parts / sizeof misplaced_parts[0]);
    refuse_all(first_faults, sizeof first_faults / sizeof first_faults[0]);
}

/* So many SEQUENCEs in each other, in the innermost this; the mark stands before the one at this place, or none has it. */
static const char *nested(int count, const char *innermost, int marked)
{
    static char text[400];
    int length = 0;

    for (int i = 0; i < count; i++)
        length += snprintf(text + length, sizeof text - (size_t)length, "%s30(", i == marked ? "!" : "");
    length += snprintf(text + length, sizeof text - (size_t)length, "%s%s", count == marked && *innermost != '\0' ? "!" : "", innermost);
    for (int i = 0; i < count; i++)
        length += snprintf(text + length, sizeof text - (size_t)length, ")");
    return text;
}

/* Elements nest 16 deep, the certificate being 1: a certificate that has this level's elements between these texts. */
static void depth_at(const char *name, int level, const char *before, const char *after)
{
    char text[2000];

    for (int deep = level; deep <= 40; deep++) {
        snprintf(text, sizeof text, "%s%s%s", before, nested(deep - level + 1, "", 17 - level), after);
        (deep <= 16 ? reads : refuses)(name, text);
        snprintf(text, sizeof text, "%s%s%s", before, nested(deep - level, "05:", 17 - level), after);
        (deep <= 16 ? reads : refuses)(name, text);
    }
}

static void depths(void)
{
    depth_at("depth in the signature algorithm", 3, "30(30(" BEFORE_SUBJECT "30() " KEY ") 30(", ") 03:)");
    depth_at("depth in the signature field", 4, "30(30(" VERSION "02:01 30(", ") 30() 30() 30() " KEY END ")");
    depth_at("depth in the issuer", 4, "30(30(" VERSION "02:01 30() 30(", ") 30() 30() " KEY END ")");
    depth_at("depth in the validity", 4, "30(30(" VERSION "02:01 30() 30() 30(", ") 30() " KEY END ")");
    depth_at("depth in the key info", 4, "30(30(" BEFORE_SUBJECT "30() $30(", ")" END ")");
    depth_at("depth in an attribute's value", 6, "30(30(" BEFORE_SUBJECT "30(31(30(06:2A ", "))) " KEY END ")");
    depth_at("depth in an otherName", 9, "30(30(" BEFORE_SUBJECT "30() " KEY "A3(30(30(06:551D11 04(30(A0(", "))))))" END ")");
    depth_at("depth in a directoryName", 10, "30(30(" BEFORE_SUBJECT "30() " KEY "A3(30(30(06:551D11 04(30(A4(30(", ")))))))" END ")");
}

/* Every part of a certificate from its front: not one byte behind is read. And every byte more is left over. */
static void cut_off(void)
{
    static struct der whole;
    static const char text[] = CERTIFICATE(CN("#0C'a'"), "81:00 82:00 " EXTENSIONS(SAN("@82'b' A4(30()) 87:00") "30(06:2A 01:FF 04:00)"));

    whole = *der_of(text);
    reads("all fields", text);
    for (size_t length = whole.length; length-- > 0;) {
        whole.length = length;
        asks("a certificate cut off", &whole, MOST_PLACES, refusal(90, 0));
    }
    whole = *der_of(text);
    for (size_t more = 1; more <= 300; more++) {
        size_t end = whole.length;

        whole.length += more;
        asks("bytes behind a certificate", &whole, MOST_PLACES, refusal(90, end));
        whole.length = end;
    }
}

/* Is what was read a part of the certificate? */
static int is_inside(uint64_t start, uint64_t length, size_t all)
{
    return start <= all && length <= all - start;
}

/* Each byte of a certificate set to each value: whatever is answered, nothing beyond is read or written, and all parts lie inside. */
static void each_byte(void)
{
    static struct der changed;

    changed = *der_of(CERTIFICATE(CN("0C'a'"), "81: 82: " EXTENSIONS(SAN("A0(05:) 82'b' 82'c'") "30(06:2A 01:FF 04:00)")));
    for (size_t i = 0; i < 256 * changed.length; i++) {
        uint8_t *byte = &changed.bytes[i / 256], before = *byte;
        const uint8_t *bytes;
        struct tweedstork_certificate_answer answer;
        int is_read;

        *byte = (uint8_t)i;
        bytes = at_end(changed.bytes, changed.length);
        answer = tweedstork_read_certificate(bytes, changed.length, places_of(MOST_PLACES), MOST_PLACES);
        *byte = before;
        is_read = answer.number == 15 && answer.length == 16 * answer.dns_id_count && answer.offset == 0
                  && is_inside(answer.key_start, answer.key_length, changed.length)
                  && is_inside(answer.common_name_start, answer.common_name_length, changed.length);
        for (size_t k = 0; is_read && k < answer.dns_id_count; k++) {
            struct tweedstork_slice name = tweedstork_dns_id(bytes, places + PLACES - MOST_PLACES, k);

            is_read = is_inside((uint64_t)(name.bytes - bytes), name.length, changed.length);
        }
        expect("each byte, each value", is_read || (answer.number == 90 && answer.offset <= changed.length && holds_just(MOST_PLACES, NULL, 0)));
    }
}

static void layout(void)
{
    static const size_t fields[] = {
        offsetof(struct tweedstork_certificate_answer, number), offsetof(struct tweedstork_certificate_answer, length),
        offsetof(struct tweedstork_certificate_answer, offset), offsetof(struct tweedstork_certificate_answer, key_start),
        offsetof(struct tweedstork_certificate_answer, key_length), offsetof(struct tweedstork_certificate_answer, dns_id_count),
        offsetof(struct tweedstork_certificate_answer, common_name_given),
        offsetof(struct tweedstork_certificate_answer, common_name_start),
        offsetof(struct tweedstork_certificate_answer, common_name_length),
    };

    for (size_t i = 0; i < 9; i++)
        expect("each field of tweedstork_certificate_answer is a number", fields[i] == 8 * i);
    expect("tweedstork_certificate_answer has nine numbers", sizeof(struct tweedstork_certificate_answer) == 72);
}

int main(void)
{
    layout();
    names();
    common_names();
    other_fields();
    lengths();
    counts();
    faults();
    depths();
    cut_off();
    each_byte();
    printf("reader: %u passed, %u failed\n", passed, failed);
    return failed == 0 ? 0 : 1;
}
