// A host in C++ with functions that are posted.
//
//     posts ASREMOTE [LIBRARY]
//
// Prints what stands in posts.expected.
#include "bustlebrick.hpp"

#include <iostream>

namespace {

const std::string script = R"(int64 mixed(int64 n) {
  int64 wrong = 0;
  for (int64 i = 0; i < n; i++) {
    say(i);
    say(i + n);
    if (last() != i + n) wrong++;
  }
  return wrong;
}
void many(int64 n) { for (int64 i = 0; i < n; i++) say(i); }
int64 blamed() { bad(); say(7); return last(); }
void kinds() {
  Thing a(7);
  Thing@ none;
  uint64 big = 0;
  big -= 1;
  note(a, true, 200, big, -5);
  note(none, false, 0, 0, 127);
  ping();
  note(a, false, 1, 2, 3);
}
)";

struct Thing {
    int number;
};

std::vector<std::int64_t> heard;
std::vector<std::string> notes;

// Notes the number of a thing, if there is one, and values of other types.
void note(std::shared_ptr<Thing> thing, bool truth, std::uint8_t small, std::uint64_t big, std::int8_t less) {
    using std::to_string;
    auto number = thing ? to_string(thing->number) : "none";
    notes.push_back(number + (truth ? " yes " : " no ") + to_string(small) + " " + to_string(big) + " " + to_string(less));
}

bustlebrick::Profile offered() {
    bustlebrick::Profile profile;
    profile.posted("void say(int64)", [](std::int64_t n) { heard.push_back(n); });
    profile.function("int64 last()", [] { return heard.back(); });
    profile.posted("void bad()", [] { throw bustlebrick::Fault(9); });
    profile.type("Thing");
    profile.factory("Thing", "Thing@ f(int)", [](int number) { return std::make_shared<Thing>(Thing{number}); });
    profile.posted("void note(Thing@+, bool, uint8, uint64, int8)", note, "Thing");
    profile.posted("void ping()", [] { notes.push_back("ping"); });
    return profile;
}

// What comes of a profile that has a function posted that has a result.
std::string wrong_profile(const std::string& program, const std::string& library) {
    auto profile = offered();
    profile.posted("int64 three()", [] { return std::int64_t{3}; });
    try {
        bustlebrick::Engine engine(profile, program, {}, 0, library);
        return "taken";
    } catch (const bustlebrick::Refused& refusal) {
        return std::string(refusal.what()).find("NotVoid") != std::string::npos ? "refused" : refusal.what();
    }
}

}  // namespace

int main(int count, char** words) {
    std::string program = words[1], library = count > 2 ? words[2] : "";
    bustlebrick::Engine engine(offered(), program, {}, 0, library);
    auto module = engine.module("m", 1);
    module.section(script);
    if (!module.build().ok()) std::cout << "the script is not built\n";
    auto wrong = module.call<std::int64_t>("int64 mixed(int64)", std::int64_t{1000});
    std::cout << "1000 times two posts and an ask: " << wrong << " out of order\n";
    heard.clear();
    module.call("void many(int64)", std::int64_t{5000});
    std::cout << "5000 posts: " << heard.size() << " heard, the last " << heard.back() << '\n';
    std::cout << "after a fault of what is posted: " << module.call<std::int64_t>("int64 blamed()") << '\n';
    auto reply = engine.command("call m () int64 blamed()");
    if (!reply.cause) std::cout << "there is no cause\n";
    module.call("void kinds()");
    std::cout << "posts of all types: ";
    for (auto& it : notes) std::cout << it << (&it == &notes.back() ? "\n" : ", ");
    std::cout << "posted with a result: " << wrong_profile(program, library) << '\n';
}
