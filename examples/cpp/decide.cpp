// Decides the sheet on standard input, and prints the line, or `(refused N)` where there is none.
#include <cstdint>
#include <iostream>
#include <iterator>
#include <string>
#include <string_view>
#include <vector>

#include "intake.h"

namespace {

// A decision's number, and its line with LF, empty where there is none.
struct Decision {
    intake_number number;
    std::string_view line;
};

// The memory that calls are lent, made once.
class Intake {
public:
    // Decides a sheet, whatever its bytes are. The line stands until the next call.
    Decision decide(std::string_view sheet)
    {
        auto bytes = reinterpret_cast<const std::uint8_t *>(sheet.data());
        auto answer = intake_decide(bytes, sheet.size(), work.data(), work.size(), output.data(), output.size());
        auto line = reinterpret_cast<const char *>(output.data());
        return {static_cast<intake_number>(INTAKE_NUMBER(answer)), {line, INTAKE_LENGTH(answer)}};
    }

private:
    std::vector<std::uint32_t> work = std::vector<std::uint32_t>(INTAKE_WORK_WORDS);
    std::vector<std::uint8_t> output = std::vector<std::uint8_t>(INTAKE_OUTPUT_BYTES);
};

}

int main()
{
    std::string sheet(std::istreambuf_iterator<char>(std::cin), {});
    Intake intake;
    Decision decision = intake.decide(sheet);
    if (decision.line.empty())
        std::cout << "(refused " << decision.number << ")\n";
    else
        std::cout << decision.line;
    return std::cout.flush() ? 0 : 1;
}
