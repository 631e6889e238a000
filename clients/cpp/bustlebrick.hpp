// Runs scripts in a Bustlebrick engine, a child process or a library in this one, and answers what they ask. C++17 and
// POSIX.
//
// A Profile says what scripts may use, and which callables answer. An Engine runs with that profile, and a Module in it
// holds scripts, which see what the module's mask shows them. README.md has an example.
#pragma once

#include <dlfcn.h>
#include <poll.h>
#include <spawn.h>
#include <strings.h>
#include <sys/socket.h>
#include <sys/wait.h>
#include <unistd.h>

#include <algorithm>
#include <cctype>
#include <charconv>
#include <chrono>
#include <cerrno>
#include <csignal>
#include <cstdint>
#include <cstdio>
#include <cstdlib>
#include <exception>
#include <filesystem>
#include <fstream>
#include <functional>
#include <limits>
#include <map>
#include <memory>
#include <optional>
#include <set>
#include <stdexcept>
#include <string>
#include <string_view>
#include <system_error>
#include <type_traits>
#include <typeinfo>
#include <unordered_map>
#include <utility>
#include <vector>

extern char** environ;

namespace bustlebrick {

constexpr const char* version = "0.1.0";

// From here on, numbers of faults are the engine's own.
constexpr std::int64_t kept_faults = 4294967280;

// Thrown by a callable: the script that asked ends with the fault `Host NUMBER`.
struct Fault : std::runtime_error {
    explicit Fault(std::int64_t n) : std::runtime_error("fault " + std::to_string(n)), number(checked(n)) {}
    std::uint32_t number;

  private:
    static std::uint32_t checked(std::int64_t n) {
        if (0 <= n && n < kept_faults) return static_cast<std::uint32_t>(n);
        throw std::invalid_argument("a host's fault is a number from 0 to " + std::to_string(kept_faults - 1));
    }
};

// The number of a script's fault where a callable threw something else, or takes other types than it declares.
constexpr std::uint32_t unexpected = 1;

// A command was not done, or the profile not taken. The text is the refusal, as `NoFunction`.
struct Refused : std::runtime_error {
    using std::runtime_error::runtime_error;
};

// A limit: the most that there may be of something. std::nullopt is no limit.
using Limit = std::optional<std::uint64_t>;

// What an engine has where nothing else is said; README.md, one folder up, says what that holds.
struct Limits {
    Limit events = 10000;  // that a reply lists, with one for the end of each object that is alive
    Limit slots = 100000;  // of objects of scripts' classes: one for each object, and one for each field
    Limit objects = 1000;  // of the host, that scripts hold

    static Limits none() { return {std::nullopt, std::nullopt, std::nullopt}; }

    std::vector<std::pair<std::string, Limit>> named() const {
        return {{"events", events}, {"slots", slots}, {"objects", objects}};
    }
};

// What scripts hold: the slots of objects of their classes, and how many objects of the host; and the ticks that the last
// build or call took.
struct Used {
    std::uint64_t slots, objects, ticks;
};

// What there was once a call had ended with the fault `Memory`, and the limits. The events are those of the reply, and
// one for the end of each object that is alive. What only variables of the call held is given up by then, and not counted.
struct Held {
    std::uint64_t events;
    Used used;
    Limits limits;

    std::string text() const {
        std::string text;
        const std::uint64_t held[] = {events, used.slots, used.objects}, *next = held;
        for (auto& [name, most] : limits.named()) {
            auto limit = most ? " of " + std::to_string(*most) : "";
            text += (text.empty() ? "" : ", ") + std::to_string(*next++) + limit + " " + name;
        }
        return text;
    }
};

// A place in the scripts of a build: sections count from 0, lines and columns from 1.
struct Place {
    unsigned section = 0, line = 0, column = 0;
};

// A function of a script that was running when a call ended with a fault. The name is `f`, `C::f` of a method or
// constructor, or `global g` of the global whose initializer it is. `declared` is the place of the name, and `place`
// that of the statement, where it is known. `source` is the line of this place as it was when the call ended, and
// std::nullopt where no Module::section added it. It has at most 200 characters: of a longer line those from the place
// on, or the last.
struct Frame {
    std::string module, name;
    Place declared;
    std::optional<Place> place;
    std::optional<std::string> source;

    // As `player attack 0:3:5: return 10 / n;`. Control characters of the source are spaces in it.
    std::string text() const {
        auto [section, line, column] = place.value_or(declared);
        auto text = module + " " + name;
        const char* before = " ";
        for (auto number : {section, line, column}) text += std::exchange(before, ":") + std::to_string(number);
        auto shown = source.value_or("");
        std::replace_if(shown.begin(), shown.end(), [](unsigned char it) { return it < 0x20 || it == 0x7f; }, ' ');
        auto first = shown.find_first_not_of(' ');
        if (first == std::string::npos) return text;
        return text + ": " + shown.substr(first, shown.find_last_not_of(' ') + 1 - first);
    }
};

// A call ended with a fault, as `Host 7`. The cause is what a callable threw, if one did. The text is the fault. That of
// `Memory`, which comes of a limit too, goes on with what there was and the limits. The trace is what was running,
// innermost first, and empty where there was no memory to keep it.
struct ScriptFault : std::runtime_error {
    ScriptFault(const std::string& name, std::exception_ptr thrown, std::vector<Frame> frames = {})
        : runtime_error(name), fault(name), cause(thrown), trace(std::move(frames)) {}
    ScriptFault(const std::string& name, std::exception_ptr thrown, const Held& there, std::vector<Frame> frames = {})
        : runtime_error(name + ": " + there.text()), fault(name), cause(thrown), held(there), trace(std::move(frames)) {}
    std::string fault;
    std::exception_ptr cause;
    std::optional<Held> held;
    std::vector<Frame> trace;

    // A line for each frame of the trace, as `player attack 0:3:5: return 10 / n;`.
    std::vector<std::string> stack() const {
        std::vector<std::string> lines;
        for (auto& frame : trace) lines.push_back(frame.text());
        return lines;
    }
};

// The engine ended or was killed. Engine::restart makes another one.
struct EngineLost : std::runtime_error {
    using std::runtime_error::runtime_error;
};

// A command took longer than the timeout, and the engine was killed.
struct CommandTimeout : EngineLost {
    CommandTimeout() : EngineLost("a command took longer than the timeout") {}
};

// An error of a build. The name is `-` where there is none.
struct BuildError {
    std::string kind;
    Place place;
    std::string name;
};

// What was refused at this place would have meant this registration, which the module's mask hides.
struct Denial {
    Place place;
    std::string declaration;
    std::uint32_t entry_mask, module_mask;
};

// What the engine answered to a command. The outcome is its last line, the cause what a callable threw meanwhile. The
// events are what scripts asked and which objects ended, in order: the lines `host ..` and `end ..`.
struct Reply {
    std::string outcome;
    std::vector<std::string> events;
    std::vector<BuildError> errors;
    std::vector<Denial> denials;
    std::exception_ptr cause;

    bool ok() const { return outcome == "ok" || outcome.rfind("ok ", 0) == 0; }
};

namespace detail {

using Texts = std::vector<std::string>;

inline Texts split(const std::string& text, char between) {
    Texts parts;
    for (std::size_t at = 0, end; at < text.size(); at = end + 1) {
        end = std::min(text.find(between, at), text.size());
        parts.push_back(text.substr(at, end - at));
    }
    return parts;
}

// The kinds of values, of asks and of answers, and both of these, are those of clients/c/bustlebrick.h.
enum Kind : std::uint32_t { signed_integer, unsigned_integer, truth, key, null };
enum AskKind : std::uint32_t { make_ask, call_ask, read_ask, write_ask };
enum AnswerKind : std::uint32_t { void_answer, gave, made, nothing, faulted };

struct Value {
    Kind kind = null;
    std::uint64_t bits = 0;
};

struct Answer {
    AnswerKind kind = void_answer;
    std::uint32_t fault = 0;
    Value value;
};

using Values = std::vector<Value>;

// The text of a value, and of an answer.
inline std::string text(const Value& value) {
    switch (value.kind) {
        case signed_integer: return std::to_string(static_cast<std::int64_t>(value.bits));
        case unsigned_integer: return std::to_string(value.bits) + "u";
        case truth: return value.bits ? "true" : "false";
        case key: return "#" + std::to_string(value.bits);
        default: return "null";
    }
}

inline std::string text(const Answer& answer) {
    switch (answer.kind) {
        case gave: return text(answer.value);
        case made: return "made " + text(answer.value);
        case nothing: return "nothing";
        case faulted: return "fault " + std::to_string(answer.fault);
        default: return "void";
    }
}

// The value of a text.
inline Value value(std::string_view text) {
    if (text == "true" || text == "false") return {truth, text == "true"};
    if (text == "null") return {};
    if (text.empty()) throw std::invalid_argument("no value");
    Value value{signed_integer, 0};
    if (text.front() == '#') value.kind = key;
    else if (text.back() == 'u') value.kind = unsigned_integer;
    auto begin = text.data() + (value.kind == key), end = text.data() + text.size() - (value.kind == unsigned_integer);
    std::int64_t number = 0;
    auto read = std::from_chars(begin, end, number);
    value.bits = static_cast<std::uint64_t>(number);
    if (read.ec == std::errc::result_out_of_range) { // a result of a call has no `u`
        if (value.kind == signed_integer) value.kind = unsigned_integer;
        read = std::from_chars(begin, end, value.bits);
    }
    if (read.ec != std::errc() || read.ptr != end) throw std::invalid_argument(std::string(text) + " is no value");
    return value;
}

// The objects that scripts hold, by their keys.
class Objects {
  public:
    using Held = std::pair<std::shared_ptr<void>, const std::type_info*>;

    bool is_making = false;

    std::size_t count() const { return by_key_.size(); }
    const Held& at(std::uint64_t key) const { return by_key_.at(key); }

    // What is answered with an object. That of a factory gets a key, which is not used again.
    Answer answer(const std::shared_ptr<void>& object, const std::type_info& type) {
        if (!object) return {is_making ? nothing : gave, 0, {}};
        if (is_making) {
            by_key_.insert({++made_, {object, &type}});
            keys_[object.get()].insert(made_);
            return {made, 0, {key, made_}};
        }
        auto keys = keys_.find(object.get());
        if (keys == keys_.end()) throw std::invalid_argument("an object that scripts don't hold");
        return {gave, 0, {key, *keys->second.begin()}};
    }

    // The key of the object that was made last.
    std::uint64_t made_last() const { return made_; }

    // Lets those objects go that were made after that of a key and are in no event: the engine had no memory to take them.
    void end_unlisted(std::uint64_t last, const Texts& events) {
        const std::string before_key = " made #";
        std::set<std::uint64_t> unlisted;
        while (last < made_) unlisted.insert(++last);
        for (auto event = events.begin(); !unlisted.empty() && event != events.end(); ++event) {
            auto at = event->find(before_key);
            if (at != std::string::npos) unlisted.erase(std::stoull(event->substr(at + before_key.size())));
        }
        for (auto key : unlisted) end(key);
    }

    // Lets an object go that has ended.
    void end(std::uint64_t key) {
        auto held = by_key_.find(key);
        if (held == by_key_.end()) return;
        auto keys = keys_.find(held->second.first.get());
        keys->second.erase(key);
        if (keys->second.empty()) keys_.erase(keys);
        by_key_.erase(held);
    }

  private:
    std::unordered_map<std::uint64_t, Held> by_key_;
    std::unordered_map<const void*, std::set<std::uint64_t>> keys_;
    std::uint64_t made_ = 0;
};

template <class T> struct IsHandle : std::false_type {};
template <class T> struct IsHandle<std::shared_ptr<T>> : std::true_type { using Object = T; };

// The integer or bool that a value is, which throws where it is of another type.
template <class T> T plain(const Value& value) {
    static_assert(std::is_integral_v<T>, "scripts have integers, bool and handles");
    constexpr bool wants_truth = std::is_same_v<T, bool>;
    auto number = static_cast<std::int64_t>(value.bits);
    bool is_negative = value.kind == signed_integer && number < 0;
    bool fits = wants_truth ? value.kind == truth : value.kind <= unsigned_integer;
    if constexpr (!wants_truth && std::is_signed_v<T>)
        fits = value.kind == signed_integer && static_cast<T>(number) == number;
    if constexpr (!wants_truth && std::is_unsigned_v<T>)
        fits = fits && !is_negative && value.bits <= std::numeric_limits<T>::max();
    if (!fits) throw std::invalid_argument(text(value) + " is of another type");
    return static_cast<T>(value.bits);
}

// The value of a type of C++, which throws where it is of another type.
template <class T> T read(const Value& value, const Objects& objects) {
    if constexpr (std::is_lvalue_reference_v<T>) {
        auto object = read<std::shared_ptr<std::remove_const_t<std::remove_reference_t<T>>>>(value, objects);
        if (!object) throw std::invalid_argument("null for an object");
        return *object;
    } else if constexpr (IsHandle<T>::value) {
        if (value.kind == null) return nullptr;
        if (value.kind != key) throw std::invalid_argument(text(value) + " is no object");
        auto& [object, type] = objects.at(value.bits);
        if (*type != typeid(typename IsHandle<T>::Object)) throw std::invalid_argument("an object of another type");
        return std::static_pointer_cast<typename IsHandle<T>::Object>(object);
    } else {
        return plain<T>(value);
    }
}

// The value that an integer or a bool is.
template <class T> Value plain_value(T value) {
    static_assert(std::is_integral_v<T>, "scripts have integers, bool and handles");
    constexpr auto kind = std::is_same_v<T, bool> ? truth : std::is_signed_v<T> ? signed_integer : unsigned_integer;
    return {kind, static_cast<std::uint64_t>(value)};
}

// The answer that a result is.
template <class T> Answer answer(const T& result, Objects& objects) {
    if constexpr (IsHandle<T>::value) return objects.answer(result, typeid(typename IsHandle<T>::Object));
    else return {gave, 0, plain_value(result)};
}

// A callable as it is asked: with its values, for its answer.
using Asked = std::function<Answer(const Values&, Objects&)>;

template <class R, class... A, std::size_t... I>
Asked asked(std::function<R(A...)> call, std::index_sequence<I...>) {
    return [call](const Values& values, Objects& objects) -> Answer {
        if (values.size() != sizeof...(A)) throw std::invalid_argument("another number of values");
        if constexpr (std::is_void_v<R>) {
            call(read<A>(values[I], objects)...);
            return {};
        } else {
            return answer(call(read<A>(values[I], objects)...), objects);
        }
    };
}

template <class R, class... A> Asked asked(std::function<R(A...)> call) {
    return asked(std::move(call), std::index_sequence_for<A...>());
}

template <class F> Asked asked(F call) { return asked(std::function(std::move(call))); }

template <class R, class T, class... A> Asked asked(R (T::*call)(A...)) {
    return asked([call](T& it, A... values) { return (it.*call)(values...); });
}

template <class R, class T, class... A> Asked asked(R (T::*call)(A...) const) {
    return asked([call](const T& it, A... values) { return (it.*call)(values...); });
}

struct Entry {
    std::uint32_t mask;
    std::string line, declaration;
    Asked asked, written; // what is asked to make, to call or to read, and to write
};

using Milliseconds = std::chrono::milliseconds;
using Time = std::chrono::steady_clock::time_point;

// Until when a command may go on that begins now.
inline Time deadline(Milliseconds timeout) {
    auto now = std::chrono::steady_clock::now();
    auto most = std::chrono::duration_cast<Milliseconds>(Time::max() - now); // a comparison of the two would overflow
    return now + std::clamp(timeout, Milliseconds(0), most);
}

// The milliseconds up to a deadline, which throws where there are none.
inline Milliseconds left(Time deadline) {
    auto left = std::chrono::ceil<Milliseconds>(deadline - std::chrono::steady_clock::now());
    if (left.count() <= 0) throw CommandTimeout();
    return left;
}

// What an engine says meanwhile: what it asks, and each line of its reply.
struct Host {
    std::function<Answer(AskKind, std::size_t, const Values&)> answer;
    std::function<void(const std::string&)> hear;
};

// An engine, wherever it runs. It ends where this is destroyed.
class Talk {
  public:
    virtual ~Talk() = default;

    // Does a command, and gives nothing; or, where the engine has ended, its status, or below 0 the signal that ended it. An
    // empty text is the engine's start.
    virtual std::optional<int> tell(const std::string& text, Milliseconds timeout, const Host& host) = 0;

    // The number of the engine's process, and 0 where it is this one.
    virtual pid_t pid() const { return 0; }
};

// The ask that a line `ask DRIVER KIND F OBJECT (V,V)` is, or one with `post`, in which F is the entry's number.
inline Answer answer(const std::string& ask, const Host& host) {
    static const std::string kinds[] = {"make", "call", "read", "write"};
    auto words = split(ask, ' ');
    Values values;
    if (words.at(4) != "-") values.push_back(value(words[4]));
    for (auto& text : split(words.at(5).substr(1, words[5].size() - 2), ',')) values.push_back(value(text));
    auto kind = static_cast<AskKind>(std::find(kinds, kinds + 3, words[2]) - kinds);
    return host.answer(kind, std::stoul(words[3]), values);
}

// An engine's process, and the lines to and from it. It is killed where this is destroyed.
class Process : public Talk {
  public:
    explicit Process(Texts words) {
        int ends[2];
        if (socketpair(AF_UNIX, SOCK_STREAM | SOCK_CLOEXEC, 0, ends) != 0) throw EngineLost("no socket");
        std::vector<char*> arguments;
        for (auto& word : words) arguments.push_back(word.data());
        arguments.push_back(nullptr);
        posix_spawn_file_actions_t actions;
        posix_spawn_file_actions_init(&actions);
        for (int file : {0, 1}) posix_spawn_file_actions_adddup2(&actions, ends[1], file);
        int error = posix_spawnp(&pid_, arguments[0], &actions, nullptr, arguments.data(), environ);
        posix_spawn_file_actions_destroy(&actions);
        close(ends[1]);
        stream_ = ends[0];
        if (error != 0) close(stream_);
        if (error != 0) throw EngineLost(words[0] + ": " + std::generic_category().message(error));
    }

    ~Process() override {
        close(stream_);
        if (has_ended_) return;
        kill(pid_, SIGKILL);
        while (waitpid(pid_, nullptr, 0) < 0 && errno == EINTR) {}
    }

    Process(const Process&) = delete;
    Process& operator=(const Process&) = delete;

    std::optional<int> tell(const std::string& text, Milliseconds timeout, const Host& host) override {
        deadline_ = deadline(timeout);
        send(text);
        for (auto line = this->line(); line != "done"; line = this->line()) {
            if (!line) return ended();
            bool is_ask = line->rfind("ask ", 0) == 0;
            if (!is_ask && line->rfind("post ", 0) != 0) {
                host.hear(*line);
                continue;
            }
            auto given = answer(*line, host);
            if (!is_ask) continue;  // `line` tells whether it is late
            left(deadline_);
            send(detail::text(given) + "\n");
        }
        return std::nullopt;
    }

    pid_t pid() const override { return pid_; }

  private:
    void send(std::string_view text) const {
        while (!text.empty()) {
            ssize_t sent = ::send(stream_, text.data(), text.size(), MSG_NOSIGNAL | MSG_DONTWAIT);
            if (sent > 0) text.remove_prefix(static_cast<std::size_t>(sent));
            else if (errno == EAGAIN) wait(POLLOUT);
            else if (errno != EINTR) return;  // what the engine said last is still to be read
        }
    }

    // The next line, or nothing where the stream ended.
    std::optional<std::string> line() {
        std::size_t end;
        while ((end = read_.find('\n', at_)) == std::string::npos) {
            wait(POLLIN);
            char data[1 << 14];
            ssize_t size = recv(stream_, data, sizeof data, 0);
            if (size == 0) return std::nullopt;
            read_.erase(0, std::exchange(at_, 0));
            if (size > 0) read_.append(data, static_cast<std::size_t>(size));
        }
        left(deadline_);
        auto line = read_.substr(at_, end - at_);
        at_ = end + 1;
        return line;
    }

    void wait(short event) const {
        constexpr Milliseconds most(std::numeric_limits<int>::max());  // of one wait
        pollfd polled{stream_, event, 0};
        while (poll(&polled, 1, static_cast<int>(std::min(left(deadline_), most).count())) <= 0) {}
    }

    // The status of the process, which has ended its output. It is killed where it goes on.
    int ended() {
        int status = 0;
        shutdown(stream_, SHUT_RDWR);
        for (pid_t waited = 0; waited != pid_;) {
            waited = waitpid(pid_, &status, WNOHANG);
            if (waited < 0 && errno != EINTR) break;  // others waited for it
            if (waited == 0 && std::chrono::steady_clock::now() >= deadline_) kill(pid_, SIGKILL);
            if (waited == 0) poll(nullptr, 0, 1);
        }
        has_ended_ = true;
        return WIFSIGNALED(status) ? -WTERMSIG(status) : WEXITSTATUS(status);
    }

    pid_t pid_ = 0;
    bool has_ended_ = false;  // and was waited for, so that its number may be another one's
    int stream_;
    Time deadline_;
    std::string read_;
    std::size_t at_ = 0;  // where in it the next line begins
};

// What stands in clients/c/bustlebrick.h.
struct LibraryOptions {
    const char* profile;
    std::size_t profile_bytes;
    std::uint32_t drivers;
    std::uint64_t budget;
    std::size_t stack_bytes, memory_bytes;
    void (*host)(void*, const void*, void*);
    void* data;
};

struct LibraryAsk {
    AskKind kind;
    std::uint32_t driver, function;
    bool has_object;
    std::uint64_t object;
    std::size_t count;
    const Value* values;
};

enum LibraryState { done, asks };

// The functions of a library.
struct Library {
    const char* (*version)();
    void* (*make)(const LibraryOptions*);
    LibraryState (*begin)(void*, const char*, std::size_t);
    const LibraryAsk* (*asked)(const void*);
    LibraryState (*resume)(void*, const Answer*);
    const char* (*reply)(const void*, std::size_t*);
    LibraryState (*state)(const void*);
    int (*status)(const void*);
    void (*set_timeout)(void*, std::uint64_t);
    LibraryState (*free)(void*);
};

// The library at a path, or nothing where there is none that can be loaded.
inline std::optional<Library> loaded(const std::string& path) {
    void* there = path.empty() ? nullptr : dlopen(path.c_str(), RTLD_NOW | RTLD_LOCAL);
    if (!there) return std::nullopt;
    Library library{};
    auto found = [&](const char* name, auto& function) {
        function = reinterpret_cast<std::remove_reference_t<decltype(function)>>(dlsym(there, name));
        if (!function) throw EngineLost(path + " has no " + name);
    };
    found("bb_version", library.version);
    found("bb_new", library.make);
    found("bb_begin", library.begin);
    found("bb_asked", library.asked);
    found("bb_resume", library.resume);
    found("bb_reply", library.reply);
    found("bb_state_of", library.state);
    found("bb_status", library.status);
    found("bb_set_timeout", library.set_timeout);
    found("bb_free", library.free);
    auto words = split(library.version(), ' ');
    if (words.size() > 1 && words[1] == version) return library;
    throw EngineLost(path + " is " + library.version() + ", and this client " + version);
}

// An engine in this process.
class InProcess : public Talk {
  public:
    InProcess(const Library& library, const std::string& profile, std::size_t drivers, std::size_t memory)
        : library_(library) {
        LibraryOptions options{};
        options.profile = profile.data();
        options.profile_bytes = profile.size();
        options.drivers = static_cast<std::uint32_t>(drivers);
        options.memory_bytes = memory;
        engine_ = library_.make(&options);
        if (!engine_) throw EngineLost("no engine could be made: " + std::generic_category().message(errno));
    }

    ~InProcess() override { library_.free(engine_); }

    InProcess(const InProcess&) = delete;
    InProcess& operator=(const InProcess&) = delete;

    std::optional<int> tell(const std::string& text, Milliseconds timeout, const Host& host) override {
        auto deadline = detail::deadline(timeout);
        library_.set_timeout(engine_, static_cast<std::uint64_t>(std::max<Milliseconds::rep>(timeout.count(), 1)));
        auto state = text.empty() ? library_.state(engine_) : library_.begin(engine_, text.data(), text.size());
        while (state == asks) {
            auto given = answer(*library_.asked(engine_), host);
            left(deadline);
            state = library_.resume(engine_, &given);
        }
        std::size_t size;
        const char* reply = library_.reply(engine_, &size);
        for (const char *at = reply, *end; at != reply + size; at = end + 1) {
            end = std::find(at, reply + size, '\n');
            host.hear(std::string(at, end));
            left(deadline);
        }
        left(deadline);
        return state == done ? std::nullopt : std::optional(library_.status(engine_));
    }

  private:
    Answer answer(const LibraryAsk& ask, const Host& host) {
        values_.clear();
        if (ask.has_object) values_.push_back({key, ask.object});
        values_.insert(values_.end(), ask.values, ask.values + ask.count);
        return host.answer(ask.kind, ask.function, values_);
    }

    Library library_;
    void* engine_;
    Values values_;
};

constexpr std::size_t most_command = 16777216; // bytes

inline Place place(const std::string& text) {
    Place place;
    std::sscanf(text.c_str(), "%u:%u:%u", &place.section, &place.line, &place.column);
    return place;
}

// What a line `at MODULE NAME PLACE PLACE` says. The name of a global's initializer has a space in it.
inline Frame frame(const std::string& line) {
    auto words = split(line, ' ');
    auto count = words.size();
    auto name = words.at(2);
    for (std::size_t at = 3; at + 2 < count; at++) name += " " + words[at];
    Frame frame{words[1], name, place(words.at(count - 2)), std::nullopt, std::nullopt};
    if (words.back() != "-") frame.place = place(words.back());
    return frame;
}

constexpr std::size_t most_source = 200;  // characters of a line

// Of a long line the characters from this column on, or the last ones. Columns count bytes. No more than four bytes are
// one character, also where they are no UTF-8.
inline std::string_view cut(std::string_view line, unsigned column) {
    std::vector<std::size_t> starts;
    for (std::size_t at = 0; at < line.size(); at++) {
        bool goes_on = (static_cast<unsigned char>(line[at]) & 0xC0) == 0x80;
        if (!goes_on || starts.empty() || at - starts.back() == 4) starts.push_back(at);
    }
    auto at = [&](std::size_t number) { return number < starts.size() ? starts[number] : line.size(); };
    auto before = std::lower_bound(starts.begin(), starts.end(), column - std::size_t{1}) - starts.begin();
    auto last = starts.size() > most_source ? starts.size() - most_source : 0;
    auto first = std::min(static_cast<std::size_t>(before), last);
    return line.substr(at(first), at(first + most_source) - at(first));
}

// The texts of a module's sections: those that wait, and those of its last build. One that a line added has none.
struct Sections {
    std::vector<std::optional<std::string>> waiting, built;
};

// Those of each module, by its name.
class Sources {
  public:
    // Follows a command that ended so. What has errors is not kept, since no fault comes to it.
    void follow(const std::string& command, const std::string& outcome) {
        auto space = command.find(' ');
        auto word = command.substr(0, space);
        if (word != "section" && word != "build" && word != "check" && word != "discard") return;
        auto name = command.substr(space + 1, command.find_first_of(" \r\n", space + 1) - space - 1);
        if (word == "section" && outcome == "ok") by_module_[name].waiting.emplace_back();
        auto found = by_module_.find(name);
        if (found == by_module_.end()) return;
        auto& [waiting, built] = found->second;
        if (word == "build" && (outcome == "ok" || outcome.rfind("refused InitFailed ", 0) == 0)) {
            built = std::exchange(waiting, {});
        } else if (word == "build" && (outcome == "refused BuildErrors" || outcome == "refused BuildMemory")) {
            found->second = {};
        } else if (word == "check" && outcome == "refused BuildErrors") {
            waiting.clear();
        } else if (word == "discard" && outcome == "ok") {
            by_module_.erase(found);
        }
    }

    // Keeps the text of the section that a module was given last.
    void keep(const std::string& module, std::string text) { by_module_.at(module).waiting.back() = std::move(text); }

    // The line of a place of a module's last build, if its text is known.
    std::optional<std::string> line(const std::string& module, const Place& place) const {
        auto found = by_module_.find(module);
        if (found == by_module_.end()) return std::nullopt;
        auto& built = found->second.built;
        if (place.section >= built.size() || !built[place.section]) return std::nullopt;
        std::string_view text = *built[place.section];
        for (unsigned number = 1; number < place.line; number++) {
            auto end = text.find('\n');
            if (end == std::string_view::npos) return std::nullopt;
            text.remove_prefix(end + 1);
        }
        text = text.substr(0, text.find('\n'));
        if (!text.empty() && text.back() == '\r') text.remove_suffix(1);
        return std::string(cut(text, place.column));
    }

  private:
    std::map<std::string, Sections> by_module_;
};

// The words and signs of a declaration, without the names of its parameters.
inline Texts plain_words(const std::string& declaration) {
    auto is_word = [](char it) { return it == '_' || std::isalnum(static_cast<unsigned char>(it)); };
    Texts plain;
    bool is_parameters = false;
    int types = 0;  // that the parameter has so far: a second word is its name
    for (std::size_t at = 0, end; at < declaration.size(); at = end) {
        end = at + 1;
        if (std::isspace(static_cast<unsigned char>(declaration[at]))) continue;
        while (is_word(declaration[at]) && end < declaration.size() && is_word(declaration[end])) end++;
        auto it = declaration.substr(at, end - at);
        if (it == "(" || it == ",") types = 0;
        else if (is_word(it[0]) && it != "const" && it != "in" && it != "out" && it != "inout") types++;
        if (!is_parameters || types < 2 || !is_word(it[0])) plain.push_back(it);
        is_parameters = is_parameters || it == "(";
    }
    return plain;
}

inline std::string mask(std::uint32_t mask) {
    char text[9];
    std::snprintf(text, sizeof text, "%08x", static_cast<unsigned>(mask));
    return text;
}

// The lines that follow a line, if that is `section NAME N`.
inline std::optional<std::uint64_t> counted(const std::string& line) {
    auto words = split(line, ' ');
    if (words.size() != 3 || words[0] != "section" || words[1].empty() || line.back() == ' ') return std::nullopt;
    bool is_number = words[2].find_first_not_of("0123456789") == std::string::npos;
    if (!is_number || words[2].empty() || words[2].size() > 10) return std::nullopt;
    return std::stoull(words[2]);
}

// Whether the first letters of a line are those of `section`: what follows it could be the text of a script.
inline bool is_like_head(const std::string& line) {
    auto is_letter = [](unsigned char c) { return 'a' <= (c | 0x20) && (c | 0x20) <= 'z'; };
    auto letters = std::string(std::find_if(line.begin(), line.end(), is_letter), line.end());
    return strncasecmp(letters.c_str(), "section", 7) == 0;
}

// The text with its last LF, if it is one command: what more it said would be taken for the next ones.
inline std::string whole(const std::string& text) {
    auto head = text.substr(0, text.find('\n'));
    if (!head.empty() && head.back() == '\r') head.pop_back();
    auto more = counted(head);
    auto lines = 1 + more.value_or(0), count = static_cast<std::uint64_t>(std::count(text.begin(), text.end(), '\n'));
    bool ends = count == lines && text.back() == '\n';
    bool is_whole = (ends || count + 1 == lines) && text.size() + !ends <= most_command;
    if (is_whole && (more || head.rfind("#", 0) == 0 || !is_like_head(head))) return ends ? text : text + "\n";
    throw std::invalid_argument(head.substr(0, 80) + " is no command, or begins more than one");
}

// As a limit: none.
constexpr std::uint64_t most_of_all = INT64_MAX;

// The lines that set limits.
inline Texts lines(const Limits& limits) {
    Texts lines;
    for (auto& [name, most] : limits.named())
        lines.push_back("limit " + name + " " + std::to_string(most.value_or(most_of_all)));
    return lines;
}

// Throws where limits can't be said, or leave no room for a host call beside the ends of all objects.
inline void check(const Limits& limits, std::size_t alive) {
    using std::to_string;
    for (auto& [name, most] : limits.named()) {
        auto refused = "the limit on " + name + ", " + to_string(most.value_or(0)) + ", is not from 0 to ";
        if (most > most_of_all) throw std::invalid_argument(refused + to_string(most_of_all));
    }
    auto ends = std::max<std::uint64_t>(limits.objects.value_or(UINT64_MAX), alive);
    if (!limits.events || *limits.events > ends) return;
    auto refused = "a limit of " + to_string(*limits.events) + " events is taken up by the ends of ";
    refused += limits.objects ? to_string(ends) : "all";
    throw std::invalid_argument(refused + " objects: it has to be above the limit on objects, and above how many are alive");
}

}  // namespace detail

// What scripts may use. A registration has the mask that is set when it is made.
class Profile {
  public:
    std::uint32_t mask = 1;

    // A function without objects, or with those of a type. An object that it gives is one that scripts hold.
    template <class F> void function(const std::string& declaration, F call, const std::string& type = "") {
        add("function " + driver(type), declaration, detail::asked(call));
    }

    // A `void` function that is posted: the script goes on at once, before the callable has run. What that throws is the
    // reply's cause, and no fault of the script.
    template <class F> void posted(const std::string& declaration, F call, const std::string& type = "") {
        add("posted " + driver(type), declaration, detail::asked(call));
    }

    // A global property that scripts only read. It is declared `const`.
    template <class F> void constant(const std::string& declaration, F get) {
        add("global 0", declaration, detail::asked(get));
    }

    // A global property.
    template <class F, class G> void global(const std::string& declaration, F get, G set) {
        add("global 0", declaration, detail::asked(get), detail::asked(set));
    }

    // A type of host objects, each of which is a std::shared_ptr<T> of the same T.
    void type(const std::string& name) {
        types_.push_back(name);
        auto line = "type " + name + " " + std::to_string(types_.size());
        entries_.push_back({mask, line, name, {}, {}});
    }

    // An enumeration and its values, which callables see as int.
    void enumeration(const std::string& name, const std::vector<std::pair<std::string, std::int32_t>>& values) {
        entries_.push_back({mask, "enum " + name, name, {}, {}});
        for (auto& [value, number] : values) this->value(name, value, number);
    }

    // One value more of an enumeration. It has the enumeration's mask.
    void value(const std::string& enumeration, const std::string& name, std::int32_t number) {
        auto is_it = [&](const detail::Entry& entry) { return entry.line == "enum " + enumeration; };
        auto found = std::find_if(entries_.begin(), entries_.end(), is_it);
        auto own = found == entries_.end() ? mask : found->mask;
        entries_.push_back({own, "value " + enumeration + " " + name + " " + std::to_string(number), name, {}, {}});
    }

    // What makes a new object of a type, or gives null.
    template <class F> void factory(const std::string& type, const std::string& declaration, F make) {
        add("factory " + type, declaration, detail::asked(make));
    }

    // A method of a type: of the class, or a callable that takes the object first.
    template <class F> void method(const std::string& type, const std::string& declaration, F call) {
        add("method " + type, declaration, detail::asked(call));
    }

    // A property of a type, which is a field of the class.
    template <class T, class V> void property(const std::string& type, const std::string& declaration, V T::*field) {
        auto get = [field](const T& it) { return it.*field; };
        auto set = [field](T& it, V value) { it.*field = value; };
        add("property " + type, declaration, detail::asked(get), detail::asked(set));
    }

    // While it is there, what is registered belongs to a group.
    class Group {
      public:
        Group(const Group&) = delete;
        ~Group() { profile_.ends_[profile_.entries_.size()].push_back("endgroup"); }

      private:
        friend class Profile;
        Group(Profile& profile, const std::string& name) : profile_(profile) {
            profile.ends_[profile.entries_.size()].push_back("group " + name.substr(0, name.find_first_of("\r\n")));
        }

        Profile& profile_;
    };

    // What is registered while the guard is there belongs to the group, and Engine::remove_group takes it away together.
    [[nodiscard]] Group group(const std::string& name) { return Group(*this, name); }

  private:
    friend class Engine;

    std::string driver(const std::string& type) const {
        return std::to_string(type.empty() ? 0 : std::find(types_.begin(), types_.end(), type) - types_.begin() + 1);
    }

    void add(const std::string& words, const std::string& declaration, detail::Asked asked,
             detail::Asked written = {}) {
        auto line = words + " " + std::to_string(entries_.size()) + " " + declaration;
        entries_.push_back({mask, line, declaration, std::move(asked), std::move(written)});
    }

    // What the engine reads: two lines for each entry. Of the groups that were removed blanks are left.
    std::string text(const std::set<std::string>& removed) const {
        std::string text;
        bool is_removed = false;
        for (std::size_t number = 0; number <= entries_.size(); number++) {
            for (auto& line : ends(number)) {
                bool was_removed = is_removed;
                is_removed = line != "endgroup" && removed.count(line.substr(6));
                if (!is_removed && !was_removed) text += line + "\n";
            }
            if (number == entries_.size()) break;
            auto& entry = entries_[number];
            text += is_removed ? "blank\n" : "mask " + detail::mask(entry.mask) + "\n" + entry.line + "\n";
        }
        return text;
    }

    // The lines that begin and end groups before an entry.
    std::vector<std::string> ends(std::size_t number) const {
        auto found = ends_.find(number);
        return found == ends_.end() ? std::vector<std::string>() : found->second;
    }

    std::vector<std::string> types_;
    std::vector<detail::Entry> entries_;
    std::map<std::size_t, std::vector<std::string>> ends_;
};

// An engine with a profile. It ends where this is destroyed.
class Engine {
  public:
    class Module;
    class Prepared;

    // Starts an engine. It is a process of `program`, the path of asremote; or, where `library` is the path of a
    // libbustlebrick.so that is there, it is in this process. `memory` is the most bytes of memory that it may have, 0
    // for no limit.
    explicit Engine(Profile profile, std::string program = "asremote", const Limits& limits = {}, std::size_t memory = 0,
                    const std::string& library = "")
        : profile_(std::move(profile)), program_(std::move(program)), limits_(limits),
          library_(detail::loaded(library)), memory_(memory) {
        detail::check(limits, 0);
        restart();
    }

    Engine(const Engine&) = delete;

    // What a command may take, with what callables take meanwhile. It does not end a callable.
    std::chrono::milliseconds timeout{10000};

    // The number of the engine's process; 0 where there is no engine, and where it is in this process.
    pid_t pid() const { return talk_ ? talk_->pid() : 0; }

    // How many objects scripts hold.
    std::size_t objects() const { return objects_.count(); }

    // The events of the last command that gave no Reply, as a call: what scripts asked, and which objects ended.
    const std::vector<std::string>& events() const { return events_; }

    // Sets the ticks that each later build and call may take.
    void budget(std::uint32_t ticks) {
        done("budget " + std::to_string(ticks));
        ticks_ = ticks;
    }

    // The limits that are set.
    const Limits& limits() const { return limits_; }

    // Sets the limits. One below what scripts hold ends nothing, and lets nothing grow.
    void set_limits(const Limits& limits) {
        detail::check(limits, objects());
        for (auto& line : detail::lines(limits)) done(line);
        limits_ = limits;
    }

    // What scripts hold, and the ticks that the last build or call took.
    Used used() {
        std::map<std::string, std::string> told;
        for (auto& line : this->told("used")) {
            auto words = detail::split(line, ' ');
            told[words.at(0)] = words.at(1);
        }
        return {std::stoull(told.at("slots")), std::stoull(told.at("objects")), std::stoull(told.at("ticks"))};
    }

    // What was running when the last build or call ended with a fault, innermost first. None after any other end.
    std::vector<Frame> trace() {
        std::vector<Frame> frames;
        for (auto& line : told("trace")) frames.push_back(detail::frame(line));
        for (auto& frame : frames) frame.source = sources_.line(frame.module, frame.place.value_or(frame.declared));
        return frames;
    }

    // Takes the entries of a group of the profile away: later builds don't see them. It is refused as InUse while a built
    // module, or an entry outside the group, uses one of them, and as NoGroup where there is none.
    void remove_group(const std::string& name) { done("remove " + name); }

    // The lines that answer a question of one line, as `used`, without `ok`. It is no command: the last one stays that
    // before it.
    std::vector<std::string> told(const std::string& question) {
        if (question.find('\n') != std::string::npos) throw std::invalid_argument("a line with a line's end: " + question);
        std::vector<std::string> lines;
        say(question + "\n", [&](const std::string& line) { lines.push_back(line); });
        Reply reply;
        reply.outcome = lines.empty() ? "" : lines.back();
        value(reply);
        lines.pop_back();
        return lines;
    }

    // Makes a module, without scripts.
    Module module(const std::string& name, std::uint32_t mask);

    // Ends the engine, if there is one, and starts another one with the same profile, budget and limits. The modules are
    // gone: they have to be made, built and bound anew. All objects are given up. Groups that were removed stay so.
    void restart() {
        check_turn();
        end();
        events_.clear();
        auto text = profile_.text(removed_);
        for (auto& line : detail::lines(limits_)) text += line + "\n";
        std::string said;
        auto hear = [&](const std::string& line) { said = line; };
        if (library_) {
            talk_ = std::make_unique<detail::InProcess>(*library_, text, drivers(), memory_);
            say("", hear);
        } else {
            start(text, hear);
        }
        if (ticks_) budget(*ticks_);
    }

    // Does a command: a line of a session, and those of its section. Another text is a std::invalid_argument.
    Reply command(const std::string& text) {
        Reply reply;
        auto last = objects_.made_last();
        say(detail::whole(text), [&](const std::string& line) { hear(line, reply); });
        objects_.end_unlisted(last, reply.events);
        reply.cause = std::exchange(cause_, nullptr);
        return reply;
    }

  private:
    // Does a command of one line, and gives what stands after its `ok`.
    std::string done(const std::string& line) {
        if (line.find('\n') != std::string::npos) throw std::invalid_argument("a line with a line's end: " + line);
        auto reply = command(line);
        events_ = std::move(reply.events);
        if (reply.outcome.rfind("fault ", 0) != 0) return value(reply);
        auto frames = trace();
        if (reply.outcome != "fault Memory") throw ScriptFault(reply.outcome.substr(6), reply.cause, std::move(frames));
        auto used = this->used();
        Held held{events_.size() + used.objects, used, limits_};
        throw ScriptFault("Memory", reply.cause, held, std::move(frames));
    }

    static std::string value(const Reply& reply) {
        auto rest = reply.outcome.substr(std::min(reply.outcome.size(), reply.outcome.find(' ') + 1));
        if (reply.outcome.rfind("fault ", 0) == 0) throw ScriptFault(rest, reply.cause);
        if (!reply.ok()) throw Refused(rest);
        return reply.outcome == "ok" ? "" : rest;
    }

    std::size_t drivers() const { return 1 + profile_.types_.size(); }

    // Starts a process with a profile, which is in a file until it has been read.
    void start(const std::string& profile, const std::function<void(const std::string&)>& hear) {
        auto path = (std::filesystem::temp_directory_path() / "bustlebrick-XXXXXX").string();
        if (close(mkstemp(path.data())) != 0) throw EngineLost("no file for the profile");
        std::shared_ptr<void> removed(nullptr, [&](void*) { unlink(path.c_str()); });
        if (!(std::ofstream(path) << profile << std::flush)) throw EngineLost("the profile is not written");
        detail::Texts words{program_, "--profile", path, "--drivers", std::to_string(drivers())};
        detail::Texts limited{"/bin/sh", "-c", "ulimit -v \"$0\" && exec \"$@\"", std::to_string(memory_ >> 10)};
        if (memory_) words.insert(words.begin(), limited.begin(), limited.end());
        talk_ = std::make_unique<detail::Process>(words);
        say("", hear);
    }

    // Takes a line of a reply.
    void hear(const std::string& line, Reply& reply) {
        reply.outcome = line;
        auto word = line.substr(0, line.find(' '));
        if (word == "host" || word == "end") reply.events.push_back(line);
        if (word != "error" && word != "denied" && word != "end") return;
        auto words = detail::split(line, ' ');
        if (word == "error") {
            auto name = word.size() + words.at(1).size() + words.at(2).size() + 3;  // it may have spaces
            reply.errors.push_back({words[1], detail::place(words[2]), line.substr(name)});
        } else if (word == "denied") {
            auto& entry = profile_.entries_.at(std::stoul(words.at(2)));
            auto mask = static_cast<std::uint32_t>(std::stoul(words.at(4), nullptr, 16));
            reply.denials.push_back({detail::place(words.at(1)), entry.declaration, entry.mask, mask});
        } else {
            objects_.end(std::stoull(words.at(2).substr(1)));
        }
    }

    // Ends the engine, if there is one, and gives all objects and texts up.
    void end() {
        talk_ = nullptr;
        starts_++;
        sources_ = {};
        auto given_up = std::exchange(objects_, {});
    }

    void check_turn() const {
        if (is_busy_) throw std::logic_error("a callable may not use the engine that asks it");
    }

    // Does a command, and answers what is asked meanwhile. Where that fails there is no engine any more.
    void say(const std::string& text, const std::function<void(const std::string&)>& hear) {
        check_turn();
        if (!talk_) throw EngineLost("there is no engine any more");
        std::string last;
        detail::Host host;
        host.answer = [this](auto kind, auto number, auto& values) { return answer(kind, number, values); };
        host.hear = [&](const std::string& line) { hear(last = line); };
        is_busy_ = true;
        try {
            if (auto status = talk_->tell(text, timeout, host)) lose(text, *status, last);
        } catch (...) {
            is_busy_ = false;
            end();
            throw;
        }
        is_busy_ = false;
        sources_.follow(text, last);
        if (last == "ok" && text.rfind("remove ", 0) == 0) removed_.insert(text.substr(7, text.find_first_of("\r\n") - 7));
    }

    // Throws how an engine ended, and what it said last: at its start, why its profile is refused.
    [[noreturn]] static void lose(const std::string& text, int status, const std::string& last) {
        if (text.empty() && !last.empty()) throw Refused(last);
        auto said = last.empty() ? "" : ", and said \"" + last + "\" last";
        throw EngineLost("the engine ended with the status " + std::to_string(status) + said);
    }

    detail::Answer answer(detail::AskKind kind, std::size_t number, const detail::Values& values) {
        try {
            auto& entry = profile_.entries_.at(number);
            objects_.is_making = kind == detail::make_ask;
            return (kind == detail::write_ask ? entry.written : entry.asked)(values, objects_);
        } catch (const Fault& fault) {
            cause_ = std::current_exception();
            return {detail::faulted, fault.number, {}};
        } catch (...) {
            cause_ = std::current_exception();
            return {detail::faulted, unexpected, {}};
        }
    }

    Profile profile_;
    std::string program_;
    Limits limits_;
    std::optional<detail::Library> library_;
    std::size_t memory_;
    std::unique_ptr<detail::Talk> talk_;
    bool is_busy_ = false;  // a command is done
    std::uint64_t starts_ = 0;  // numbers of prepared calls are those of one start
    std::vector<std::string> events_;
    detail::Objects objects_;
    detail::Sources sources_;
    std::optional<std::uint32_t> ticks_;
    std::set<std::string> removed_;  // names of groups
    std::exception_ptr cause_;
};

// A module of an engine, which has to be there as long as it is used.
class Engine::Module {
  public:
    // Gives it another mask, which acts from the next build on.
    void set_mask(std::uint32_t mask) { engine_->done("mask " + name_ + " " + detail::mask(mask)); }

    // Adds a section of script for the next build. The text is kept for the traces of faults.
    void section(std::string text) {
        bool ends = !text.empty() && text.back() == '\n';
        auto lines = std::to_string(std::count(text.begin(), text.end(), '\n') + !ends);
        value(engine_->command("section " + name_ + " " + lines + "\n" + text + (ends ? "" : "\n")));
        engine_->sources_.keep(name_, std::move(text));
    }

    // Builds the sections that wait. The reply says whether that was done, and the errors and denials if not.
    Reply build() { return engine_->command("build " + name_); }

    // Says what a build of the sections that wait would say, and builds nothing. Sections with errors wait no more, as
    // after a build; others wait still, and a build can follow.
    Reply check() { return engine_->command("check " + name_); }

    // The declarations of the functions that it was built with, in the order of its text.
    std::vector<std::string> functions() { return listed("function "); }

    // The declarations of its global variables.
    std::vector<std::string> globals() { return listed("global "); }

    // The declarations of its imports: the place of one is its number.
    std::vector<std::string> imports() {
        auto imports = listed("import ");
        for (auto& it : imports) it.erase(0, it.find(' ') + 1);
        return imports;
    }

    // Binds the import of that number to a function of another module.
    void bind(unsigned number, const Module& exporter, const std::string& declaration) {
        engine_->done("bind " + name_ + " " + std::to_string(number) + " " + exporter.name_ + " " + declaration);
    }

    // Binds the import of this declaration to the function of the same one of another module.
    void bind(const std::string& declaration, const Module& exporter) {
        auto wanted = detail::plain_words(declaration);
        auto number = 0u;
        for (auto& it : imports()) {
            if (detail::plain_words(it) == wanted) return bind(number, exporter, declaration);
            number++;
        }
        throw Refused("NoImport");
    }

    // Unbinds the import of that number.
    void unbind(unsigned number) { engine_->done("unbind " + name_ + " " + std::to_string(number)); }

    // Calls a function of the scripts by its declaration, and gives its result: `call<int>("int twice(int)", 21)`.
    template <class R = void, class... A> R call(const std::string& declaration, const A&... values) {
        std::string texts;
        ((texts += (texts.empty() ? "" : ",") + detail::text(detail::plain_value(values))), ...);
        auto result = engine_->done("call " + name_ + " (" + texts + ") " + declaration);
        if constexpr (!std::is_void_v<R>) return detail::plain<R>(detail::value(result));
    }

    // Looks a function up, to be called again and again without its text.
    Prepared prepare(const std::string& declaration);

    // Ends the module.
    void discard() { engine_->done("discard " + name_); }

  private:
    friend class Engine;

    std::vector<std::string> listed(const std::string& word) {
        std::vector<std::string> lines;
        for (auto& line : engine_->told("list " + name_)) {
            if (line.rfind(word, 0) == 0) lines.push_back(line.substr(word.size()));
        }
        return lines;
    }

    Module(Engine* engine, std::string name) : engine_(engine), name_(std::move(name)) {}

    Engine* engine_;
    std::string name_;
};

// A function of a module's scripts that was looked up (Module::prepare). It is refused as `NoFunction` once its module was
// built again or discarded, or the engine restarted: then it is to be prepared anew.
class Engine::Prepared {
  public:
    // Calls it with these values, as Module::call does: `prepared.call<int>(21)`.
    template <class R = void, class... A> R call(const A&... values) {
        if (start_ != engine_->starts_) throw Refused("NoFunction");
        std::string texts;
        ((texts += (texts.empty() ? "" : ",") + detail::text(detail::plain_value(values))), ...);
        auto result = engine_->done("run " + number_ + " (" + texts + ")");
        if constexpr (!std::is_void_v<R>) return detail::plain<R>(detail::value(result));
    }

  private:
    friend class Engine::Module;
    Prepared(Engine* engine, std::uint64_t start, std::string number)
        : engine_(engine), start_(start), number_(std::move(number)) {}

    Engine* engine_;
    std::uint64_t start_;
    std::string number_;
};

inline Engine::Prepared Engine::Module::prepare(const std::string& declaration) {
    auto lines = engine_->told("prepare " + name_ + " " + declaration);
    auto& line = lines.at(0);
    return Prepared(engine_, engine_->starts_, line.substr(line.find(' ') + 1));
}

inline Engine::Module Engine::module(const std::string& name, std::uint32_t mask) {
    if (name.empty() || name.find_first_of(" \n") != std::string::npos) throw Refused("BadName");  // no line could say it
    done("module " + name + " " + detail::mask(mask));
    return Module(this, name);
}

using Module = Engine::Module;
using Prepared = Engine::Prepared;

}  // namespace bustlebrick
