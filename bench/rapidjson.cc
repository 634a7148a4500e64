// Reads and writes standard input so many times by RapidJSON's DOM, and says the microseconds of each on standard
// error, as `leaf_bench json` does. Checks UTF-8 and keeps each number's spelling, as json_text does.
#include <chrono>
#include <cstdio>
#include <cstdlib>
#include <iostream>
#include <iterator>
#include <string>

#include <rapidjson/document.h>
#include <rapidjson/stringbuffer.h>
#include <rapidjson/writer.h>

using Clock = std::chrono::steady_clock;

static long micros(Clock::time_point start) {
    return static_cast<long>(std::chrono::duration_cast<std::chrono::microseconds>(Clock::now() - start).count());
}

static bool parse(rapidjson::Document &document, const std::string &text) {
    constexpr unsigned flags = rapidjson::kParseValidateEncodingFlag | rapidjson::kParseNumbersAsStringsFlag;
    document.Parse<flags>(text.data(), text.size());
    return !document.HasParseError();
}

int main(int count, char **words) {
    if (count != 2) {
        std::fprintf(stderr, "usage: rapidjson ROUNDS < TEXT\n");
        return 2;
    }
    const int rounds = std::atoi(words[1]);
    const std::string text(std::istreambuf_iterator<char>(std::cin), {});
    const auto reading = Clock::now();
    for (int round = 0; round < rounds; round++) {
        rapidjson::Document document;
        if (!parse(document, text)) {
            return 1;
        }
    }
    const long read = micros(reading);
    rapidjson::Document document;
    if (!parse(document, text)) {
        return 1;
    }
    rapidjson::StringBuffer out;
    const auto writing = Clock::now();
    for (int round = 0; round < rounds; round++) {
        out.Clear();
        rapidjson::Writer<rapidjson::StringBuffer> writer(out);
        document.Accept(writer);
    }
    std::fprintf(stderr, "%ld %ld\n", read, micros(writing));
}
