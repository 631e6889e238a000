// Builds the script on standard input with the AngelScript library, calls its function m and discards the module. Prints
// what asrun prints of the same script: a line for each call of the host and for each end of one of its objects, the end of
// the build where it is refused, and that of the call. What the library says of a build goes to standard error.
#define AS_USE_NAMESPACE
#include <angelscript.h>
#include <cstdio>
#include <iostream>
#include <iterator>
#include <string>
using namespace AngelScript;

static std::string number(asINT64 n) { return std::to_string(n); }
static int made[3];

// An object of the driver 1, a counter, or 2, a cell.
struct Object {
    int driver, value, step = 1, count = 1, key = made[driver]++;
    Object(int of, int first) : driver(of), value(first) {}
    void add() { ++count; }
    void release() {
        if (--count) return;
        printf("end %d #%d\n", driver, key);
        delete this;
    }
};

static std::string name(Object *o) { return o ? "#" + number(o->key) : "null"; }

static void asked(int entry, int driver, Object *on, const std::string &arguments, const std::string &answer) {
    printf("host a %d %d %s (%s) %s\n", entry, driver, on ? name(on).c_str() : "-", arguments.c_str(), answer.c_str());
}

static Object *fresh(int entry, int driver, const std::string &arguments, int value) {
    Object *o = new Object(driver, value);
    asked(entry, driver, 0, arguments, "made " + name(o));
    return o;
}

static int wrapped(asINT64 n) { return (int)n; }

// the functions of the host, with the numbers of their lines in the profile of random_classes.py
static Object *counter() { return fresh(1, 1, "", 0); }
static Object *counter_of(int n) { return fresh(2, 1, number(n), n); }
static void bump(Object *o) {
    asked(3, 1, o, "", "void");
    o->value = wrapped((asINT64)o->value + o->step);
}
static int value(Object *o) { return asked(4, 1, o, "", number(o->value)), o->value; }
static Object *cell(int n) { return fresh(7, 2, number(n), n); }
static Object *cell_from(Object *o, int n) {
    std::string arguments = name(o) + "," + number(n);
    if (o) return fresh(8, 2, arguments, wrapped((asINT64)o->value + n));
    asked(8, 2, 0, arguments, "fault 1");
    asGetActiveContext()->SetException("Host 1");
    return 0;
}
static int get(Object *o) { return asked(9, 2, o, "", number(o->value)), o->value; }
static void set(Object *o, int n) {
    asked(10, 2, o, number(n), "void");
    o->value = n;
}
static Object *pick(Object *o) { return asked(11, 2, 0, name(o), name(o)), o; }
static void print(asINT64 n) { asked(12, 0, 0, number(n), "void"); }
static asINT64 sum(asINT64 a, asINT64 b) {
    asINT64 both = (asINT64)((asQWORD)a + (asQWORD)b);
    return asked(13, 0, 0, number(a) + "," + number(b), number(both)), both;
}

static void say(const asSMessageInfo *m, void *) {
    fprintf(stderr, "%s %d:%d %s\n", m->type == asMSGTYPE_ERROR ? "error" : "note", m->row, m->col, m->message);
}

static void type(asIScriptEngine *e, const char *name) {
    e->RegisterObjectType(name, 0, asOBJ_REF);
    e->RegisterObjectBehaviour(name, asBEHAVE_ADDREF, "void f()", asMETHOD(Object, add), asCALL_THISCALL);
    e->RegisterObjectBehaviour(name, asBEHAVE_RELEASE, "void f()", asMETHOD(Object, release), asCALL_THISCALL);
}

static asIScriptEngine *registered() {
    asIScriptEngine *e = asCreateScriptEngine();
    e->SetMessageCallback(asFUNCTION(say), 0, asCALL_CDECL);
    type(e, "Counter");
    type(e, "Cell");
    e->RegisterObjectBehaviour("Counter", asBEHAVE_FACTORY, "Counter@ f()", asFUNCTION(counter), asCALL_CDECL);
    e->RegisterObjectBehaviour("Counter", asBEHAVE_FACTORY, "Counter@ f(int)", asFUNCTION(counter_of), asCALL_CDECL);
    e->RegisterObjectMethod("Counter", "void bump()", asFUNCTION(bump), asCALL_CDECL_OBJFIRST);
    e->RegisterObjectMethod("Counter", "int value() const", asFUNCTION(value), asCALL_CDECL_OBJFIRST);
    e->RegisterObjectProperty("Counter", "int step", asOFFSET(Object, step));
    e->RegisterObjectBehaviour("Cell", asBEHAVE_FACTORY, "Cell@ f(int)", asFUNCTION(cell), asCALL_CDECL);
    e->RegisterObjectBehaviour("Cell", asBEHAVE_FACTORY, "Cell@ f(Cell@+, int)", asFUNCTION(cell_from), asCALL_CDECL);
    e->RegisterObjectMethod("Cell", "int get() const", asFUNCTION(get), asCALL_CDECL_OBJFIRST);
    e->RegisterObjectMethod("Cell", "void set(int)", asFUNCTION(set), asCALL_CDECL_OBJFIRST);
    e->RegisterGlobalFunction("Cell@+ pick(Cell@+)", asFUNCTION(pick), asCALL_CDECL);
    e->RegisterGlobalFunction("void print(int64)", asFUNCTION(print), asCALL_CDECL);
    e->RegisterGlobalFunction("int64 sum(int64, int64)", asFUNCTION(sum), asCALL_CDECL);
    return e;
}

int main() {
    std::string script((std::istreambuf_iterator<char>(std::cin)), std::istreambuf_iterator<char>());
    asIScriptEngine *e = registered();
    asIScriptModule *m = e->GetModule("a", asGM_ALWAYS_CREATE);
    m->AddScriptSection("s", script.c_str(), script.size());
    if (m->Build() < 0) return m->Discard(), printf("refused\n"), 0;
    asIScriptContext *c = e->CreateContext();
    c->Prepare(m->GetFunctionByDecl("int64 m()"));
    bool done = c->Execute() == asEXECUTION_FINISHED;
    std::string end = done ? "ok " + number(c->GetReturnQWord()) : std::string("exception ") + c->GetExceptionString();
    c->Release();
    printf("%s\n", end.c_str());
    m->Discard();
    e->ShutDownAndRelease();
}
