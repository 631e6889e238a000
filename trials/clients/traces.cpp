// A host in C++ whose calls end with faults: it prints the frames of their traces, and their stacks.
//
//     traces ASREMOTE [LIBRARY]
//
// Prints what stands in traces.expected.
#include "bustlebrick.hpp"

#include <iostream>

using bustlebrick::Engine;
using bustlebrick::Frame;
using bustlebrick::Module;
using bustlebrick::Place;
using bustlebrick::ScriptFault;

namespace {

using Texts = std::vector<std::string>;

const std::string shares_script = R"(class Pair {
  int all;
  Pair(int n) { all = n; check(n); }
  int split(int between) { return all / between; }
}
void check(int n) {
  if (n < 0)
    fail(n);
}
int share(int all, int between) {
  Pair pair(all);
  int part = pair.split(between);
  return part;
}
)";
const std::string shop_script = R"(import int share(int, int) from "shares";
int price(int n) {
  for (int i = 0; i < 3; i++) {
    if (i == 2)
      return share(100, n);
  }
  return 0;
}
)";
const std::string initialized_script = R"(int half(int n) { return 1 / n; }
int good = half(1);
int bad =
  half(0);
)";
const std::string windows_script = "int tabs(int n) {\r\n\tint m = n;\r\n\treturn\t10 /\tm;\r\n}\r\n";
const std::string outer_script = "int outer(int n) {\n  return inner(n);\n}";  // without an LF at its end
const std::string inner_script = "\nint inner(int n) {\n  return 7 / n;\n}\n";
const std::string another_outer_script = "int outer(int n) { return 8 / n; }\n";
const std::string deep_script =
    "int deep(int n) {\n  return deep(n + 1);\n}\nvoid chatter() {\n  while (true)\n    say(1);\n}\n";
const std::string odd_script = "int odd(int n) { return 9 / n; }";

// A line of 10,000 bytes: a function at its beginning, one behind 5,000, and one at its end.
std::string long_line() {
    auto function = [](const std::string& number) {
        return "int at_" + number + "(int n) { return " + number + " / n; }";
    };
    auto first = function("1"), third = function("3");
    auto middle = first + "/*" + std::string(5000 - first.size() - 4, '-') + "*/" + function("2") + "/*";
    return middle + std::string(9998 - middle.size() - third.size(), '-') + "*/" + third;
}

// A comment of bytes that are no UTF-8.
std::string letters(std::size_t count, char letter = '\xe9') {
    return "int letters(int n) { return 1 / n; }//" + std::string(count, letter);
}

std::string yes(bool truth) { return truth ? "yes" : "no"; }

std::string text(const Place& at) {
    return std::to_string(at.section) + ":" + std::to_string(at.line) + ":" + std::to_string(at.column);
}

std::string plain(std::string text) {
    for (char& it : text) it = static_cast<unsigned char>(it) < 0x80 ? it : '?';
    return text;
}

std::string shown(const std::optional<std::string>& source) {
    if (!source) return "no source";
    std::string shown = "[";
    for (char it : plain(*source)) shown += it == '\t' ? "\\t" : it == '\r' ? "\\r" : std::string(1, it);
    return shown + "]";
}

void tell_frames(const std::vector<Frame>& frames) {
    for (auto& it : frames)
        std::cout << "  " << it.module << ", " << it.name << ", " << text(it.declared) << ", "
                  << (it.place ? text(*it.place) : "-") << ", " << shown(it.source) << '\n';
}

void tell_stack(const Texts& lines) {
    for (auto& line : lines) std::cout << "  in " << plain(line) << '\n';
}

// Prints how a call ended, and gives its fault.
template <class F> std::optional<ScriptFault> tell(const std::string& what, F call) {
    try {
        std::cout << what << ": ";
        std::cout << call() << '\n';
    } catch (const ScriptFault& fault) {
        std::cout << "fault " << fault.what() << '\n';
        tell_frames(fault.trace);
        tell_stack(fault.stack());
        return fault;
    } catch (const bustlebrick::Refused& refusal) {
        std::cout << "refused " << refusal.what() << '\n';
    }
    return std::nullopt;
}

// Calls `int NAME(int)` with 0.
std::optional<ScriptFault> call(const std::string& what, Module& module, const std::string& name) {
    return tell(what, [&] { return module.call<int>("int " + name + "(int)", 0); });
}

void build(const std::string& name, Module& module, const Texts& sections) {
    for (auto& section : sections) module.section(section);
    std::cout << name << ": " << module.build().outcome << '\n';
}

Module made(Engine& engine, const std::string& name, const Texts& sections) {
    auto module = engine.module(name, 1);
    build(name, module, sections);
    return module;
}

bustlebrick::Profile offered() {
    bustlebrick::Profile profile;
    profile.function("void fail(int)", [](int) { throw bustlebrick::Fault(7); });
    profile.function("void say(int)", [](int) {});
    return profile;
}

void methods_and_imports(Engine& engine) {
    auto shares = made(engine, "shares", {shares_script}), shop = made(engine, "shop", {shop_script});
    tell("in a method", [&] { return shares.call<int>("int share(int, int)", 10, 0); });
    tell("below a constructor", [&] { return shares.call<int>("int share(int, int)", -1, 1); });
    call("not bound", shop, "price");
    shop.bind("int share(int, int)", shares);
    auto price = shop.prepare("int price(int)");
    tell("through an import", [&] { return price.call<int>(0); });
}

void initializers(Engine& engine) {
    auto module = made(engine, "initialized", {initialized_script});
    auto frames = engine.trace();
    tell_frames(frames);
    Texts lines;
    for (auto& frame : frames) lines.push_back(frame.text());
    tell_stack(lines);
    call("not built", module, "half");
    std::cout << "frames then: " << engine.trace().size() << '\n';
}

void lines(Engine& engine) {
    auto windows = made(engine, "windows", {windows_script}), long_one = made(engine, "long", {long_line()});
    std::cout << "bytes of the long line: " << long_line().size() << '\n';
    call("CRLF and tabs", windows, "tabs");
    call("at the beginning", long_one, "at_1");
    call("in the middle", long_one, "at_2");
    call("at the end", long_one, "at_3");
    auto few = made(engine, "few", {letters(10)}), many = made(engine, "many", {letters(1000)});
    call("letters", few, "letters");
    call("more letters", many, "letters");

    // Bytes of which each would go on with a letter of UTF-8.
    many.section(letters(10000, '\x80'));
    many.build();
    try {
        many.call<int>("int letters(int)", 0);
    } catch (const ScriptFault& fault) {
        std::cout << "at most 800 bytes: " << yes(fault.trace.at(0).source.value().size() <= 800) << '\n';
    }
}

void sections(Engine& engine) {
    auto two = made(engine, "two", {outer_script, inner_script});
    auto old = call("two sections", two, "outer");
    build("two", two, {another_outer_script});
    call("built again", two, "outer");
    std::cout << "before that\n";
    tell_stack(old.value().stack());

    // What is refused in between makes no difference.
    two.section("int outer( {");
    std::cout << "check: " << two.check().outcome << '\n';
    build("two", two, {"int outer( {"});
    engine.budget(0);
    build("two", two, {outer_script});
    engine.budget(10000);
    build("two", two, {inner_script});
    call("refused in between", two, "outer");
    two.discard();
    two = made(engine, "two", {another_outer_script});
    call("another module", two, "outer");
}

void raw_lines(Engine& engine) {
    auto odd = engine.module("odd", 1);
    engine.command("section odd 1\n" + odd_script);
    engine.command("build odd\r\n");
    call("a raw section", odd, "odd");
    engine.command("section odd 4\n" + inner_script);
    odd.section(outer_script);
    engine.command("build odd");
    call("a raw one and another", odd, "outer");
    engine.restart();
    odd = engine.module("odd", 1);
    engine.command("section odd 1\n" + odd_script);
    build("odd", odd, {});
    call("the next engine", odd, "odd");
}

void many(Engine& engine) {
    auto deep = made(engine, "deep", {deep_script});
    try {
        deep.call<int>("int deep(int)", 0);
    } catch (const ScriptFault& fault) {
        auto stack = fault.stack();
        auto alike = static_cast<std::size_t>(std::count(stack.begin(), stack.end(), stack.at(0))) == stack.size();
        std::cout << "fault " << fault.what() << ": " << fault.trace.size() << " frames, all alike: " << yes(alike)
                  << '\n';
        tell_stack({stack[0]});
    }
    auto limits = engine.limits();
    limits.events = 5;
    limits.objects = 4;
    engine.set_limits(limits);
    tell("a limit", [&] {
        deep.call("void chatter()");
        return "done";
    });
    engine.budget(3);
    call("a budget", deep, "deep");
}

}  // namespace

int main(int count, char** words) {
    try {
        Engine engine(offered(), words[1], {}, 0, count > 2 ? words[2] : "");
        engine.budget(10000);
        for (auto part : {methods_and_imports, initializers, lines, sections, raw_lines, many}) part(engine);
        return 0;
    } catch (const std::exception& error) {
        std::cerr << "traces: " << error.what() << '\n';
        return 1;
    }
}
