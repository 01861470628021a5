/* RapidJSON with UTF-8 checked, as RFC 8259 has it, and decimals rounded to the nearest, as the library rounds them: by
 * its defaults it does neither. It stands in a file of its own since RapidJSON is compiled with what uses it, and one
 * form more beside the others made those slower. */

#include <rapidjson/document.h>

#include <cstddef>

bool rapidjson_accepts_checked(const char *bytes, std::size_t count);

bool rapidjson_accepts_checked(const char *bytes, std::size_t count)
{
    constexpr unsigned flags = rapidjson::kParseValidateEncodingFlag | rapidjson::kParseFullPrecisionFlag;
    rapidjson::Document document;
    document.Parse<flags>(bytes, count);
    return !document.HasParseError();
}
