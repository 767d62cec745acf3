/* Requirements and markers of the form that most have. What has another one, or is none, is left to Python (_parser.py), which says what is wrong. Each
   `take` reads what stands at a place of a string with a zero at its end, and moves the place behind it. Where what it reads is not there, it returns NULL
   or 0 without an exception. */

/* What markers are made of: the classes of variables, values and operators, and a dict of the variables by their spellings. */
typedef struct {
    PyObject *variable;
    PyObject *value;
    PyObject *operator;
    PyObject *variables;
} Nodes;

enum { DEEPEST = 20 };

static int is_of_word(char it) { return is_letter_or_digit(it) || it == '_'; }

static void skip_blanks(const char **at)
{
    while (**at == ' ' || **at == '\t')
        ++*at;
}

static int take_sign(const char **at, const char *sign)
{
    size_t length = strlen(sign);
    if (strncmp(*at, sign, length))
        return 0;
    *at += length;
    return 1;
}

/* A word, with no other letter behind it. */
static int take_word(const char **at, const char *word)
{
    const char *here = *at;
    if (!take_sign(&here, word) || is_of_word(*here))
        return 0;
    *at = here;
    return 1;
}

static PyObject *take_name(const char **at)
{
    const char *start = *at;
    if (!is_letter_or_digit(*start))
        return NULL;
    while (is_of_word(**at) || **at == '.' || **at == '-')
        ++*at;
    return is_of_word((*at)[-1]) ? PyUnicode_FromStringAndSize(start, *at - start) : NULL;
}

/* The names between brackets, if there are any; a list. */
static PyObject *take_extras(const char **at)
{
    PyObject *extras = PyList_New(0), *name;
    if (!extras || **at != '[')
        return extras;
    do {
        ++*at;
        skip_blanks(at);
        if (**at == ']' && PyList_Size(extras) == 0)
            break;
        name = take_name(at);
        if (!name || PyList_Append(extras, name) < 0)
            Py_CLEAR(extras);
        Py_XDECREF(name);
        skip_blanks(at);
    } while (extras && **at == ',');
    if (extras && !take_sign(at, "]"))
        Py_CLEAR(extras);
    return extras;
}

/* An operator, and what may yet be no version. Behind `===` commas belong to the string, so it is left to Python. */
static int take_specifier(const char **at)
{
    const char *here = *at, *start;
    if (*here && strchr("~!<>=", *here) && here[1] == '=')
        here += 2;
    else if (*here == '<' || *here == '>')
        here++;
    else
        return 0;
    skip_blanks(&here);
    for (start = here; is_of_word(*here) || (*here && strchr(".+!*-", *here));)
        here++;
    if (here == start)
        return 0;
    *at = here;
    return 1;
}

/* Specifiers with commas between them, and maybe one behind the last; a str, empty where there are none. */
static PyObject *take_specifiers(const char **at)
{
    const char *start = *at, *here;
    int is_more = take_specifier(at);
    while (is_more) {
        here = *at;
        skip_blanks(&here);
        is_more = take_sign(&here, ",");
        if (!is_more)
            break;
        *at = here;
        skip_blanks(&here);
        is_more = take_specifier(&here);
        if (is_more)
            *at = here;
    }
    return PyUnicode_FromStringAndSize(start, *at - start);
}

/* The same, maybe in parentheses. */
static PyObject *take_enclosed_specifiers(const char **at)
{
    int is_open = take_sign(at, "(");
    PyObject *specifiers;
    skip_blanks(at);
    specifiers = take_specifiers(at);
    skip_blanks(at);
    if (specifiers && is_open && !take_sign(at, ")"))
        Py_CLEAR(specifiers);
    return specifiers;
}

static PyObject *take_url(const char **at)
{
    const char *start = *at;
    while (**at > ' ' && **at <= '~')
        ++*at;
    return *at > start && (!**at || **at == ' ' || **at == '\t') ? PyUnicode_FromStringAndSize(start, *at - start) : NULL;
}

/* ---- markers */

/* An object of the class with this value, which is dropped. */
static PyObject *make_node(PyObject *class, PyObject *value)
{
    static PyObject *name;
    PyObject *made = value && (name || (name = PyUnicode_InternFromString("value"))) ? PyType_GenericAlloc((PyTypeObject *)class, 0) : NULL;
    if (made && PyObject_SetAttr(made, name, value) < 0)
        Py_CLEAR(made);
    Py_XDECREF(value);
    return made;
}

/* What stands between quotes, where it is to Python what it looks like. */
static PyObject *take_value(const char **at, const Nodes *nodes)
{
    const char quote = **at, *start = ++*at;
    for (; **at != quote; ++*at)
        if (**at < ' ' || **at > '~' || **at == '\\')
            return NULL;
    return make_node(nodes->value, PyUnicode_FromStringAndSize(start, (*at)++ - start));
}

static PyObject *take_variable(const char **at, const Nodes *nodes)
{
    const char *start = *at;
    PyObject *spelling, *name;
    while ((**at >= 'a' && **at <= 'z') || **at == '_' || **at == '.')
        ++*at;
    if (is_of_word(**at) || !(spelling = PyUnicode_FromStringAndSize(start, *at - start)))
        return NULL;
    name = PyDict_GetItemWithError(nodes->variables, spelling);
    Py_DECREF(spelling);
    return name ? make_node(nodes->variable, Py_NewRef(name)) : NULL;
}

static PyObject *take_operand(const char **at, const Nodes *nodes)
{
    return **at == '\'' || **at == '"' ? take_value(at, nodes) : take_variable(at, nodes);
}

static PyObject *take_operator(const char **at, const Nodes *nodes)
{
    static const char *const SIGNS[] = {"===", "==", "~=", "!=", "<=", ">=", "<", ">"};
    int is_not;
    for (size_t each = 0; each < sizeof SIGNS / sizeof *SIGNS; each++)
        if (take_sign(at, SIGNS[each]))
            return make_node(nodes->operator, PyUnicode_FromString(SIGNS[each]));
    is_not = take_word(at, "not");
    skip_blanks(at);
    if (!take_word(at, "in"))
        return NULL;
    return make_node(nodes->operator, PyUnicode_FromString(is_not ? "not in" : "in"));
}

/* (left, operator, right) */
static PyObject *take_item(const char **at, const Nodes *nodes)
{
    PyObject *left = take_operand(at, nodes), *operator = NULL, *right = NULL, *item = NULL;
    skip_blanks(at);
    if (left)
        operator = take_operator(at, nodes);
    skip_blanks(at);
    if (operator)
        right = take_operand(at, nodes);
    if (right)
        item = PyTuple_Pack(3, left, operator, right);
    Py_XDECREF(left);
    Py_XDECREF(operator);
    Py_XDECREF(right);
    return item;
}

static PyObject *take_marker(const char **at, const Nodes *nodes, int depth);

/* An item, or a marker in parentheses. */
static PyObject *take_atom(const char **at, const Nodes *nodes, int depth)
{
    PyObject *atom;
    skip_blanks(at);
    if (!take_sign(at, "("))
        atom = take_item(at, nodes);
    else if ((atom = depth < DEEPEST ? take_marker(at, nodes, depth + 1) : NULL) && !take_sign(at, ")"))
        Py_CLEAR(atom);
    skip_blanks(at);
    return atom;
}

static int append(PyObject *list, PyObject *made)
{
    int done = made ? PyList_Append(list, made) : -1;
    Py_XDECREF(made);
    return done;
}

/* Items with "and" and "or" between them; a list for each pair of parentheses. */
static PyObject *take_marker(const char **at, const Nodes *nodes, int depth)
{
    PyObject *marker = PyList_New(0);
    const char *word = NULL;
    do {
        if (!marker || (word && append(marker, PyUnicode_FromString(word)) < 0) || append(marker, take_atom(at, nodes, depth)) < 0) {
            Py_XDECREF(marker);
            return NULL;
        }
        word = take_word(at, "and") ? "and" : take_word(at, "or") ? "or" : NULL;
    } while (word);
    return marker;
}

/* ---- whole strings */

/* The start of the string and its end, and the nodes, of a call (string, nodes). NULL where the string has no bytes, with an exception or without. */
static const char *begin(const char *call, PyObject *const *args, Py_ssize_t count, const char **end, Nodes *nodes)
{
    Py_ssize_t length = 0;
    const char *bytes;
    if (!has_count(call, count, 2))
        return NULL;
    *nodes = (Nodes){PyTuple_GetItem(args[1], 0), PyTuple_GetItem(args[1], 1), PyTuple_GetItem(args[1], 2), PyTuple_GetItem(args[1], 3)};
    if (!nodes->variables || !PyUnicode_Check(args[0]))
        return NULL;
    bytes = PyUnicode_AsUTF8AndSize(args[0], &length);
    *end = bytes ? bytes + length : NULL;
    return bytes;
}

/* What was made of a string, or None where it is left to Python: where it has no UTF-8, too. */
static PyObject *made_or_none(PyObject *made)
{
    if (!made && (!PyErr_Occurred() || PyErr_ExceptionMatches(PyExc_UnicodeEncodeError))) {
        PyErr_Clear();
        Py_RETURN_NONE;
    }
    return made;
}

/* (name, url, extras, specifiers, marker) */
static PyObject *take_requirement(const char **at, const char *end, const Nodes *nodes)
{
    PyObject *name, *extras = NULL, *url = NULL, *specifiers = NULL, *marker = NULL, *made = NULL;
    skip_blanks(at);
    name = take_name(at);
    skip_blanks(at);
    if (name)
        extras = take_extras(at);
    skip_blanks(at);
    if (extras && take_sign(at, "@")) {
        skip_blanks(at);
        url = take_url(at);
        specifiers = url ? PyUnicode_FromString("") : NULL;
    } else if (extras) {
        url = PyUnicode_FromString("");
        specifiers = url ? take_enclosed_specifiers(at) : NULL;
    }
    skip_blanks(at);
    if (specifiers)
        marker = take_sign(at, ";") ? take_marker(at, nodes, 0) : Py_NewRef(Py_None);
    if (marker && *at == end)
        made = PyTuple_Pack(5, name, url, extras, specifiers, marker);
    Py_XDECREF(name);
    Py_XDECREF(extras);
    Py_XDECREF(url);
    Py_XDECREF(specifiers);
    Py_XDECREF(marker);
    return made;
}

/* read_requirement(source, nodes) */
static PyObject *read_requirement(PyObject *module, PyObject *const *args, Py_ssize_t count)
{
    Nodes nodes;
    const char *end, *at = begin("read_requirement", args, count, &end, &nodes);
    return made_or_none(at ? take_requirement(&at, end, &nodes) : NULL);
}

/* read_marker(source, nodes) */
static PyObject *read_marker(PyObject *module, PyObject *const *args, Py_ssize_t count)
{
    Nodes nodes;
    const char *end, *at = begin("read_marker", args, count, &end, &nodes);
    PyObject *marker = at ? take_marker(&at, &nodes, 0) : NULL;
    if (marker && at != end)
        Py_CLEAR(marker);
    return made_or_none(marker);
}

/* ---- the value of a marker, by the rule of 26 */

/* What evaluates: the classes of nodes; a dict that says of a variable True where it may be compared as versions are, and False where it is left to Python;
   the variables of this process that were read before; what compares versions, (sign, version, candidate), None where there are none; and what evaluates
   a comparison in Python. */
enum { VARIABLE_CLASS, VALUE_CLASS, OPERATOR_CLASS, KINDS, KNOWN, COMPARE_VERSIONS, BY_PYTHON, TOOLS };

typedef struct {
    PyObject *tools[TOOLS];
    PyObject *environment;
} Evaluation;

/* Whether a comparison holds, or that it is left to Python. */
enum { LEFT_TO_PYTHON = 2 };

static PyObject *value_in(PyObject *node)
{
    static PyObject *name;
    return name || (name = PyUnicode_InternFromString("value")) ? PyObject_GetAttr(node, name) : NULL;
}

/* The value of a variable. */
static PyObject *look_up(const Evaluation *by, PyObject *name)
{
    PyObject *value = PyDict_GetItemWithError(by->environment, name);
    if (!value && !PyErr_Occurred())
        value = PyDict_GetItemWithError(by->tools[KNOWN], name);
    if (value || PyErr_Occurred())
        return Py_XNewRef(value);
    return PyObject_GetItem(by->environment, name);
}

static int compare_as_versions(const Evaluation *by, PyObject *sign, PyObject *left, PyObject *right)
{
    PyObject *answer = PyObject_CallFunctionObjArgs(by->tools[COMPARE_VERSIONS], sign, right, left, NULL);
    int holds = !answer ? -1 : answer == Py_None ? LEFT_TO_PYTHON : PyObject_IsTrue(answer);
    Py_XDECREF(answer);
    return holds;
}

/* Compares strings; of `<` and `>` nothing is known, since no order of strings is. */
static int compare_texts(const char *sign, PyObject *left, PyObject *right)
{
    int is_equal;
    if (!strcmp(sign, "<") || !strcmp(sign, ">"))
        return 0;
    if (sign[1] != '=' || sign[2] || *sign == '~')
        return LEFT_TO_PYTHON;
    is_equal = PyUnicode_Compare(left, right) == 0;
    return PyErr_Occurred() ? -1 : *sign == '!' ? !is_equal : is_equal;
}

static int compare_operands(const Evaluation *by, PyObject *name, PyObject *sign, PyObject *left, PyObject *right)
{
    Py_ssize_t length = 0;
    const char *bytes = PyUnicode_CheckExact(sign) ? PyUnicode_AsUTF8AndSize(sign, &length) : NULL;
    PyObject *kind = bytes && length ? PyDict_GetItemWithError(by->tools[KINDS], name) : NULL;
    int holds = LEFT_TO_PYTHON;
    if (PyErr_Occurred())
        return -1;
    if (!bytes || !length || kind == Py_False || !PyUnicode_CheckExact(left) || !PyUnicode_CheckExact(right))
        return LEFT_TO_PYTHON;
    if (bytes[length - 1] == 'n') { /* `in` or `not in` */
        holds = PyUnicode_Contains(right, left);
        return holds < 0 ? -1 : holds ^ (*bytes == 'n');
    }
    if (kind == Py_True)
        holds = compare_as_versions(by, sign, left, right);
    return holds == LEFT_TO_PYTHON ? compare_texts(bytes, left, right) : holds;
}

static int evaluate_quickly(const Evaluation *by, PyObject *left, PyObject *operator, PyObject *right)
{
    int is_left = (PyObject *)Py_TYPE(left) == by->tools[VARIABLE_CLASS], holds = LEFT_TO_PYTHON;
    PyObject *variable = is_left ? left : right, *other = is_left ? right : left, *name, *value = NULL, *text = NULL, *sign = NULL;
    if ((PyObject *)Py_TYPE(variable) != by->tools[VARIABLE_CLASS] || (PyObject *)Py_TYPE(other) != by->tools[VALUE_CLASS] ||
        (PyObject *)Py_TYPE(operator) != by->tools[OPERATOR_CLASS])
        return LEFT_TO_PYTHON;
    name = value_in(variable);
    if (name && PyUnicode_CheckExact(name))
        value = look_up(by, name);
    if (value && (text = value_in(other)))
        sign = value_in(operator);
    if (sign)
        holds = compare_operands(by, name, sign, is_left ? value : text, is_left ? text : value);
    Py_XDECREF(name);
    Py_XDECREF(value);
    Py_XDECREF(text);
    Py_XDECREF(sign);
    return PyErr_Occurred() ? -1 : holds;
}

/* Whether a comparison holds. 1, 0, or -1 with an error. */
static int evaluate_item(const Evaluation *by, PyObject *item)
{
    PyObject *answer;
    int holds = LEFT_TO_PYTHON;
    if (PyTuple_CheckExact(item) && PyTuple_Size(item) == 3)
        holds = evaluate_quickly(by, PyTuple_GetItem(item, 0), PyTuple_GetItem(item, 1), PyTuple_GetItem(item, 2));
    if (holds != LEFT_TO_PYTHON)
        return holds;
    answer = PyObject_CallFunctionObjArgs(by->tools[BY_PYTHON], item, by->environment, NULL);
    holds = answer ? PyObject_IsTrue(answer) : -1;
    Py_XDECREF(answer);
    return holds;
}

/* Whether of the groups that "or" parts one has comparisons that all hold. Each is made, since it may raise an error. */
static int evaluate_list(const Evaluation *by, PyObject *markers)
{
    int group = 1, any = 0, holds;
    if (Py_EnterRecursiveCall(" in a marker"))
        return -1;
    for (Py_ssize_t at = 0; any >= 0 && at < PyList_Size(markers); at++) {
        PyObject *each = Py_NewRef(PyList_GetItem(markers, at));
        if (PyUnicode_Check(each)) {
            if (!PyUnicode_CompareWithASCIIString(each, "or"))
                any |= group, group = 1;
            holds = 1;
        } else
            holds = PyList_Check(each) ? evaluate_list(by, each) : evaluate_item(by, each);
        Py_DECREF(each);
        any = holds < 0 ? -1 : any;
        group &= holds;
    }
    Py_LeaveRecursiveCall();
    return any < 0 ? -1 : any | group;
}

/* evaluate_marker(markers, environment, tools) */
static PyObject *evaluate_marker(PyObject *module, PyObject *const *args, Py_ssize_t count)
{
    Evaluation by;
    int holds;
    if (!has_count("evaluate_marker", count, 3))
        return NULL;
    if (!PyList_Check(args[0]) || !PyDict_Check(args[1]) || PyTuple_Size(args[2]) != TOOLS) {
        if (!PyErr_Occurred())
            PyErr_SetString(PyExc_TypeError, "a marker is a list, and its environment a dict");
        return NULL;
    }
    for (Py_ssize_t place = 0; place < TOOLS; place++)
        by.tools[place] = PyTuple_GetItem(args[2], place);
    by.environment = args[1];
    holds = evaluate_list(&by, args[0]);
    return holds < 0 ? NULL : PyBool_FromLong(holds);
}

/* ---- names of projects */

/* Writes the name without a second `-` behind another one; its length. */
static Py_ssize_t write_name(const char *name, Py_ssize_t length, char *out)
{
    Py_ssize_t written = 0;
    for (Py_ssize_t at = 0; at < length; at++) {
        char next = normal_byte(name[at]);
        if (next != '-' || !written || out[written - 1] != '-')
            out[written++] = next;
    }
    return written;
}

/* normal_name(name): the normalized name of a project (PEP 503), of a str of ASCII that is not long; else None */
static PyObject *normal_name(PyObject *module, PyObject *given)
{
    char out[256];
    Py_ssize_t length = 0, written;
    const char *name = PyUnicode_CheckExact(given) ? PyUnicode_AsUTF8AndSize(given, &length) : NULL;
    if (!name)
        PyErr_Clear();
    if (!name || length > (Py_ssize_t)sizeof out || length != PyUnicode_GetLength(given))
        Py_RETURN_NONE;
    written = write_name(name, length, out);
    if (written == length && !memcmp(name, out, (size_t)length))
        return Py_NewRef(given);
    return PyUnicode_FromStringAndSize(out, written);
}

/* is_normal_name(name): whether a str of ASCII has small letters and digits, with one `-` between them; else None */
static PyObject *is_normal_name(PyObject *module, PyObject *given)
{
    Py_ssize_t length = 0, at = 0;
    const char *name = PyUnicode_CheckExact(given) ? PyUnicode_AsUTF8AndSize(given, &length) : NULL;
    if (!name || length != PyUnicode_GetLength(given)) {
        PyErr_Clear();
        Py_RETURN_NONE;
    }
    while (at < length && ((is_letter_or_digit(name[at]) && normal_byte(name[at]) == name[at]) || (name[at] == '-' && at && name[at - 1] != '-')))
        at++;
    return PyBool_FromLong(length && at == length && name[length - 1] != '-');
}

/* canonicalize_name(name, *, validate=False) of a module that has `_canonicalize_by_python`, which takes all but a short str of ASCII alone. */
static PyObject *canonicalize_name(PyObject *module, PyObject *const *args, Py_ssize_t count, PyObject *names)
{
    PyObject *normal = count == 1 && !names ? normal_name(NULL, args[0]) : NULL, *by_python, *made;
    if (normal && normal != Py_None)
        return normal;
    Py_XDECREF(normal);
    by_python = PyErr_Occurred() ? NULL : PyObject_GetAttrString(module, "_canonicalize_by_python");
    made = by_python ? call_by(PyObject_Call, by_python, args, (size_t)count, names) : NULL;
    Py_XDECREF(by_python);
    return made;
}

/* ---- names of wheels */

/* Whether behind the name of a project, which is written without its dashes, a dash stands: its length, or 0. */
static Py_ssize_t wheel_name_length(const char *name, Py_ssize_t length)
{
    Py_ssize_t at = 0;
    while (at < length && (is_of_word(name[at]) || name[at] == '.') && (name[at] != '_' || !at || name[at - 1] != '_'))
        at++;
    return at < length && name[at] == '-' ? at : 0;
}

/* split_wheel(filename): of a str of ASCII with the parts of a wheel's name. The version, the build and the tags may yet be none. */
static PyObject *split_wheel(PyObject *module, PyObject *given)
{
    char out[256];
    Py_ssize_t length = 0, dashes = 0, name, places[5];
    const char *bytes = PyUnicode_CheckExact(given) ? PyUnicode_AsUTF8AndSize(given, &length) : NULL, *version, *build, *tags;
    PyErr_Clear();
    if (!bytes || length < 4 || length != PyUnicode_GetLength(given) || memcmp(bytes + length - 4, ".whl", 4))
        Py_RETURN_NONE;
    length -= 4;
    for (Py_ssize_t at = 0; at < length; at++)
        if (bytes[at] == '-') {
            if (dashes == 5)
                Py_RETURN_NONE;
            places[dashes++] = at;
        }
    name = wheel_name_length(bytes, length);
    if (dashes < 4 || !name || name > (Py_ssize_t)sizeof out)
        Py_RETURN_NONE;
    version = bytes + places[0] + 1;
    build = bytes + places[1] + 1;
    tags = bytes + places[dashes - 3] + 1;
    return Py_BuildValue("NNNN", PyUnicode_FromStringAndSize(out, write_name(bytes, name, out)), PyUnicode_FromStringAndSize(version, build - 1 - version),
                         tags > build ? PyUnicode_FromStringAndSize(build, tags - 1 - build) : Py_NewRef(Py_None),
                         PyUnicode_FromStringAndSize(tags, bytes + length - tags));
}
