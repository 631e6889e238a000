"""A sentence for each error, fault and refusal, and what helps."""

ERRORS = {
    "TooLong": "a section has at most 65,536 bytes, and a token 255",
    "BadByte": "no token begins with this byte",
    "BadNumber": "this is not a valid number",
    "OpenComment": "this comment is never closed",
    "TooDeep": "too many brackets are open here, or too many operators stand in one statement",
    "Syntax": "unexpected '{name}'",
    "Duplicate": "the name '{name}' is already taken",
    "Limit": "'{name}' is beyond a limit, or has too many parts",
    "UnknownType": "there is no type '{name}'",
    "BadType": "the type '{name}' can't stand here",
    "ByValue": "an object of '{name}' can't be passed, returned or stored by value",
    "BadBase": "'{name}' can't stand as a base here, or stands above itself",
    "MissingMethod": "the class has no public method '{name}', which one of its interfaces requires",
    "BadOverride": "'{name}' overrides nothing, or a method that is final or has another result",
    "Cyclic": "an object of '{name}' could lead back to itself",
    "UnknownName": "there is no '{name}'",
    "NoMatch": "no '{name}' takes these arguments",
    "Ambiguous": "several '{name}' fit, and none fits best",
    "NoDefault": "'{name}' can't be made without arguments",
    "Private": "'{name}' is private to its class",
    "Protected": "'{name}' is for its class and for those derived from it",
    "Const": "'{name}' would change what is const",
    "NoAssign": "objects are not assigned by value",
    "BadConversion": "this value doesn't convert to the type that is needed, or isn't a variable that could be changed",
    "NotBool": "a bool is needed here",
    "BadOut": "the argument of an &out parameter has to be the bare name of a variable",
    "Jump": "'{name}' stands outside a loop",
    "NoReturn": "'{name}' has a path that ends without a return",
    "BadImport": "an import can't have the type '{name}'",
}
SYNTAX_AT_END = "the script ends too early"

HELP = {
    "TooDeep": "64 brackets may be open, and 256 operators stand up to the next ;, { or }",
    "OpenComment": "comments do not nest: the first */ ends one",
    "ByValue": "take a handle 'T@', or as a parameter 'const T &in' or 'T &inout'",
    "BadOverride": "a method of an interface is written without 'override'; one of a base class has its result, parameters and const",
    "Cyclic": "let an object of the host hold the whole structure, with numbers for its parts",
    "NoAssign": "'@a = b' lets the handle a lead to the object of b",
    "BadConversion": "bool and numbers do not convert into one another; 'int8(e)' and 'E(n)' make a number and a value of an enumeration",
    "NotBool": "compare: 'a != 0', 'a !is null'",
    "BadOut": "that is a local, a parameter, a field or a global of the script, but not a property of the host",
    "NoReturn": "return ends a path, and so do an if with else, a block, and 'while (true)' without a break",
    "BadImport": "imports pass numbers, truth values, enumerations and handles to types of the host",
    "NoDefault": "give it arguments, in a constructor by super(..); or declare a handle 'T@'",
    "Protected": "a public method of the class can give it",
    "Private": "a public method of the class can give it",
}

FAULTS = {
    "Null": "a method, a property or a field of a null handle, or null where an object is wanted",
    "NoObject": "a factory of the host made no object",
    "DivideByZero": "a division by 0, or a remainder of one",
    "DivideOverflow": "the least number of a type, divided by -1",
    "Budget": "it took more ticks than its budget has",
    "Depth": "more than 200 calls stood one inside the other",
    "Host": "the host ended the run",
    "BadAnswer": "the host's answer is not of the declared type and range",
    "Memory": "memory was refused, or a limit was met",
    "Tally": "a count of the host's is full",
    "Unbound": "the import that was called is not bound",
}

REFUSALS = {
    "BadName": "the name is not an identifier",
    "ModuleExists": "there is a module of this name",
    "Limit": "there are 64 modules, or 64 sections wait",
    "NoModule": "there is no module of this name",
    "NotBuilt": "the module is not built",
    "NoGroup": "there is no group of this name that was ended, or none any more",
    "InUse": "a built module uses an entry of the group, or an entry outside it names a type of it",
    "GroupOpen": "a group was begun and not ended",
    "BadBudget": "a budget is 1 to 2147483647 ticks",
    "BuildErrors": "the script has errors",
    "InitFailed": "an initializer of a global ended with a fault",
    "BuildMemory": "the build was refused memory, or a statement stands inside 4,000 others",
    "NoImport": "the module has no such import",
    "NoFunction": "the script has no function of this declaration",
    "SignatureDiffers": "the import and the function differ in result or parameters",
    "NotCallable": "a function with references, objects or handles is not called from outside",
    "BadArguments": "there is one value for each parameter, of its type: 7, 7u for an unsigned one, true or false",
    "Memory": "memory was refused",
    "BadLine": "the engine does not know this line; a value is 7, -7, 7u, true or false",
    "EmptyMask": "the mask is 00000000, which no module could see",
    "BadDeclaration": "the declaration is not of the line's form, or one that hosts can't use",
    "UnknownType": "a type that the line names is not registered before it",
    "WrongDriver": "the driver's number is above 63, has a type already, or the declaration names a type of another driver",
    "Duplicate": "the name is taken",
    "NotVoid": "a function that is posted has no result",
}


def error_sentence(kind: str, name: str) -> str:
    if kind == "Syntax" and name == "-":
        return SYNTAX_AT_END
    return ERRORS.get(kind, "the engine refuses this").replace("{name}", name)


def refusal_sentence(refusal: str) -> str:
    word, _, fault = refusal.partition(" ")
    said = REFUSALS.get(word, "the engine refuses this")
    return f"{said}: {fault_sentence(fault)}" if fault else said


def fault_sentence(fault: str) -> str:
    return FAULTS.get(fault.partition(" ")[0], "the run ended")
