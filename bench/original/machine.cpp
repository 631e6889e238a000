// Runs `int64 main()` of a script in the interpreter of the original engine and prints how long it took.
//
//     machine SCRIPT ANSWER TURNS [MODE]
//
// A module that SCRIPT imports from is built of the file of its name in the folder `exporters` beside SCRIPT.
//
// Prints the seconds of processor time of the quickest of TURNS runs; the build is no part of them. Ends with status 1 where the
// script does not build, does not run to its end, or gives another number than ANSWER.
//
// MODE is one of
//     plain    the engine as it comes: the code can be interrupted at each statement, and nobody does (this, if left out)
//     bare     built so that nothing can interrupt the code
//     counted  as plain, with a line callback that counts against a budget
//     listed   as plain, and each call of the host is listed with its caller, its arguments and its answer, and so is each
//              object's end; the list is printed into a file when the run has ended, which is in the seconds

#include <angelscript.h>

#include <cinttypes>
#include <cstdint>
#include <cstdio>
#include <cstdlib>
#include <ctime>
#include <filesystem>
#include <limits>
#include <stdexcept>
#include <string>
#include <vector>

#include "shared.h"

namespace {

enum class Mode { Plain, Bare, Counted, Listed };

struct Request {
    std::string path;
    std::int64_t answer;
    int turns;
    Mode mode;
};

struct Run {
    std::int64_t answer;
    double seconds;
};

Mode mode_of(const std::string &word) {
    if (word == "plain") return Mode::Plain;
    if (word == "bare") return Mode::Bare;
    if (word == "counted") return Mode::Counted;
    if (word == "listed") return Mode::Listed;
    throw std::runtime_error("no mode: " + word);
}

Request request_of(int count, char **words) {
    if (count < 4 || count > 5) throw std::runtime_error("machine SCRIPT ANSWER TURNS [plain | bare | counted | listed]");
    Request request{words[1], std::atoll(words[2]), std::atoi(words[3]), mode_of(count == 5 ? words[4] : "plain")};
    if (request.turns < 1) throw std::runtime_error("no number of turns: " + std::string(words[3]));
    return request;
}

void show_message(const asSMessageInfo *message, void *) {
    std::fprintf(stderr, "%d:%d %s\n", message->row, message->col, message->message);
}

/// A count of references and a number, which each object of the host has. It begins with one reference.
class Held {
public:
    explicit Held(int value, unsigned key = 0) : key_(key), value_(value) {}
    void add_reference() { references_ += 1; }
    bool gives_up() {
        references_ -= 1;
        return references_ == 0;
    }
    unsigned key() const { return key_; }
    int value() const { return value_; }

protected:
    int references_ = 1;
    unsigned key_;
    int value_;
};

/// An object of the host that counts, as those of our sample driver do.
class Counter : public Held {
public:
    using Held::Held;
    void release() {
        if (gives_up()) delete this;
    }
    void bump() { value_ = static_cast<int>(static_cast<unsigned>(value_) + 1u); }
};

/// An object of the host that holds a number, as those of our sample driver do.
class Cell : public Held {
public:
    using Held::Held;
    void release() {
        if (gives_up()) delete this;
    }
};

template <typename Thing> Thing *make(int value) { return new Thing(value); }

template <typename Thing> int value_of(const Thing *thing) { return thing->value(); }

/// A sum, or an exception where it does not fit into 64 bits.
std::int64_t sum_of(std::int64_t a, std::int64_t b) {
    std::int64_t total = 0;
    if (__builtin_add_overflow(a, b, &total)) asGetActiveContext()->SetException("no such sum");
    return total;
}

/// What a script asked of the host, and what became of an object.
enum class Deed { CounterMade, Bumped, CounterTold, CounterEnded, CellMade, CellTold, CellEnded, Summed };

/// One entry of the list: who called what of which object, and the numbers that were handed over or answered.
struct Event {
    Deed deed;
    unsigned key;
    std::string caller;
    std::int64_t number, other, answer;
};

/// The list of a run, and how many objects of each type were made.
struct List {
    std::vector<Event> events;
    unsigned counters = 0, cells = 0;
};

List list;

void add_event(Deed deed, unsigned key, std::int64_t number, std::int64_t other = 0, std::int64_t answer = 0) {
    list.events.push_back({deed, key, asGetActiveContext()->GetFunction()->GetModuleName(), number, other, answer});
}

void add_end(Deed deed, unsigned key) { list.events.push_back({deed, key, std::string(), 0, 0, 0}); }

/// The functions of a type of objects, each of which is listed.
template <typename Thing, unsigned List::*made, Deed made_deed, Deed told_deed, Deed ended_deed> struct Listed {
    static Thing *make(int value) {
        const unsigned key = list.*made;
        list.*made += 1;
        add_event(made_deed, key, value);
        return new Thing(value, key);
    }
    static int value(const Thing *thing) {
        add_event(told_deed, thing->key(), thing->value());
        return thing->value();
    }
    static void release(Thing *thing) {
        if (!thing->gives_up()) return;
        add_end(ended_deed, thing->key());
        delete thing;
    }
};

using ListedCounter = Listed<Counter, &List::counters, Deed::CounterMade, Deed::CounterTold, Deed::CounterEnded>;
using ListedCell = Listed<Cell, &List::cells, Deed::CellMade, Deed::CellTold, Deed::CellEnded>;

void bump_listed(Counter *counter) {
    counter->bump();
    add_event(Deed::Bumped, counter->key(), 0);
}

std::int64_t sum_listed(std::int64_t a, std::int64_t b) {
    const std::int64_t total = sum_of(a, b);
    add_event(Deed::Summed, 0, a, b, total);
    return total;
}

/// The line of an entry, as asrun prints it.
std::string line_of(const Event &event) {
    const std::string key = "#" + std::to_string(event.key);
    const std::string number = std::to_string(event.number);
    const std::string host = "host " + event.caller;
    switch (event.deed) {
        case Deed::CounterMade: return host + " 2 1 - (" + number + ") made " + key + "\n";
        case Deed::Bumped: return host + " 3 1 " + key + " () void\n";
        case Deed::CounterTold: return host + " 4 1 " + key + " () " + number + "\n";
        case Deed::CounterEnded: return "end 1 " + key + "\n";
        case Deed::CellMade: return host + " 7 2 - (" + number + ") made " + key + "\n";
        case Deed::CellTold: return host + " 8 2 " + key + " () " + number + "\n";
        case Deed::CellEnded: return "end 2 " + key + "\n";
        case Deed::Summed:
            return host + " 5 0 - (" + number + "," + std::to_string(event.other) + ") " + std::to_string(event.answer) + "\n";
    }
    return "";
}

/// Prints the list into a file that goes with the program, and empties it.
void print_list() {
    static std::FILE *const file = std::tmpfile();
    require(file != nullptr, "there is no file for the list");
    for (const Event &event : list.events) {
        const std::string line = line_of(event);
        std::fwrite(line.data(), 1, line.size(), file);
    }
    std::fflush(file);
    list = List();
}

/// The functions of a type that the scripts of bench/objects use, listed or not.
struct TypeFunctions {
    asSFuncPtr make, add_reference, release, value;
    asDWORD released_by;
};

void well(int answer) { require(answer >= 0, "what the host offers is refused"); }

void register_type(asIScriptEngine *engine, const char *name, const char *factory, const char *value, const TypeFunctions &of) {
    well(engine->RegisterObjectType(name, 0, asOBJ_REF));
    well(engine->RegisterObjectBehaviour(name, asBEHAVE_FACTORY, factory, of.make, asCALL_CDECL));
    well(engine->RegisterObjectBehaviour(name, asBEHAVE_ADDREF, "void add_reference()", of.add_reference, asCALL_THISCALL));
    well(engine->RegisterObjectBehaviour(name, asBEHAVE_RELEASE, "void release()", of.release, of.released_by));
    well(engine->RegisterObjectMethod(name, value, of.value, asCALL_CDECL_OBJFIRST));
}

template <typename Thing, typename ListedThing> TypeFunctions functions_of(bool is_listed) {
    const asSFuncPtr counts = asMETHOD(Thing, add_reference);
    if (is_listed) {
        return {asFUNCTION(ListedThing::make), counts, asFUNCTION(ListedThing::release), asFUNCTION(ListedThing::value),
                asCALL_CDECL_OBJFIRST};
    }
    return {asFUNCTION(make<Thing>), counts, asMETHOD(Thing, release), asFUNCTION(value_of<Thing>), asCALL_THISCALL};
}

/// What the scripts of bench/objects use of the host.
void register_host(asIScriptEngine *engine, Mode mode) {
    const bool is_listed = mode == Mode::Listed;
    const auto counters = functions_of<Counter, ListedCounter>(is_listed);
    const auto cells = functions_of<Cell, ListedCell>(is_listed);
    register_type(engine, "Counter", "Counter@ make(int)", "int value() const", counters);
    register_type(engine, "Cell", "Cell@ make(int)", "int get() const", cells);
    const asSFuncPtr bump = is_listed ? asFUNCTION(bump_listed) : asMETHOD(Counter, bump);
    well(engine->RegisterObjectMethod("Counter", "void bump()", bump, is_listed ? asCALL_CDECL_OBJFIRST : asCALL_THISCALL));
    const asSFuncPtr sum = is_listed ? asFUNCTION(sum_listed) : asFUNCTION(sum_of);
    well(engine->RegisterGlobalFunction("int64 sum(int64, int64)", sum, asCALL_CDECL));
}

asIScriptModule *built_module(asIScriptEngine *engine, const char *name, const std::filesystem::path &path) {
    const std::string text = text_of(path.string());
    asIScriptModule *module = engine->GetModule(name, asGM_ALWAYS_CREATE);
    require(module->AddScriptSection(name, text.data(), text.size()) >= 0, "the section is refused");
    require(module->Build() >= 0, path.string() + " does not build");
    return module;
}

/// The module of that name, built if it isn't yet.
asIScriptModule *exporter(asIScriptEngine *engine, const char *name, const std::filesystem::path &folder) {
    asIScriptModule *module = engine->GetModule(name, asGM_ONLY_IF_EXISTS);
    return module != nullptr ? module : built_module(engine, name, folder / (std::string(name) + ".as"));
}

/// Binds each import of a module to the function of its declaration in the module that it names.
void bind_imports(asIScriptEngine *engine, asIScriptModule *module, const std::filesystem::path &folder) {
    for (asUINT index = 0; index < module->GetImportedFunctionCount(); index++) {
        const std::string declaration = module->GetImportedFunctionDeclaration(index);
        asIScriptModule *other = exporter(engine, module->GetImportedFunctionSourceModule(index), folder);
        asIScriptFunction *function = other->GetFunctionByDecl(declaration.c_str());
        require(function != nullptr, "there is no function to import: " + declaration);
        require(module->BindImportedFunction(index, function) >= 0, "the import is not bound: " + declaration);
    }
}

/// `main` of the script, built in a module of the engine whose imports are bound.
asIScriptFunction *built_main(asIScriptEngine *engine, const Request &request) {
    const std::filesystem::path path = request.path;
    engine->SetMessageCallback(asFUNCTION(show_message), nullptr, asCALL_CDECL);
    engine->SetEngineProperty(asEP_BUILD_WITHOUT_LINE_CUES, request.mode == Mode::Bare);
    register_host(engine, request.mode);
    asIScriptModule *module = built_module(engine, "bench", path);
    bind_imports(engine, module, path.parent_path() / "exporters");
    asIScriptFunction *main = module->GetFunctionByDecl("int64 main()");
    require(main != nullptr, "there is no int64 main()");
    return main;
}

/// One less of the budget for each line, and an end where it is used up.
void count_line(asIScriptContext *context, std::int64_t *budget) {
    *budget -= 1;
    if (*budget < 0) context->Abort();
}

double processor_seconds() {
    timespec now{};
    clock_gettime(CLOCK_PROCESS_CPUTIME_ID, &now);
    return static_cast<double>(now.tv_sec) + static_cast<double>(now.tv_nsec) * 1e-9;
}

Run run_once(asIScriptContext *context, asIScriptFunction *main, Mode mode) {
    require(context->Prepare(main) >= 0, "main cannot be prepared");
    const double start = processor_seconds();
    const int outcome = context->Execute();
    if (mode == Mode::Listed) print_list();
    const double end = processor_seconds();
    require(outcome == asEXECUTION_FINISHED, "main does not run to its end");
    return Run{static_cast<std::int64_t>(context->GetReturnQWord()), end - start};
}

/// The seconds of the quickest run, each of which gives the answer.
double quickest(asIScriptContext *context, asIScriptFunction *main, const Request &request) {
    double best = std::numeric_limits<double>::infinity();
    for (int turn = 0; turn < request.turns; turn++) {
        const Run run = run_once(context, main, request.mode);
        require(run.answer == request.answer, "main gives " + std::to_string(run.answer));
        best = run.seconds < best ? run.seconds : best;
    }
    return best;
}

double measured(asIScriptEngine *engine, const Request &request) {
    asIScriptFunction *main = built_main(engine, request);
    asIScriptContext *context = engine->CreateContext();
    std::int64_t budget = std::numeric_limits<std::int64_t>::max();
    if (request.mode == Mode::Counted) {
        context->SetLineCallback(asFUNCTION(count_line), &budget, asCALL_CDECL);
    }
    const double seconds = quickest(context, main, request);
    context->Release();
    return seconds;
}

}  // namespace

int main(int count, char **words) {
    try {
        const Request request = request_of(count, words);
        asIScriptEngine *engine = asCreateScriptEngine();
        require(engine != nullptr, "there is no engine");
        std::printf("%.6f\n", measured(engine, request));
        engine->ShutDownAndRelease();
        return 0;
    } catch (const std::exception &error) {
        std::fprintf(stderr, "machine: %s\n", error.what());
        return 1;
    }
}
