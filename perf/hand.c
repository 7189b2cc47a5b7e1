/* The same rules by hand in C: docs/RULES.md. KIND is the kind of measured value: 0, 1 or 2. */
#include <stdbool.h>
#include <stddef.h>
#include <stdint.h>
#include <string.h>

enum denial {
    DONE = 0,
    SETUP_UNDER_KEYPAD = 1,
    CHANNEL_COUNT = 2,
    RANGE = 3,
    CAPTURE_LENGTH = 4,
    BLANK = 5,
    BUFFER_TOO_SHORT = 6,
    RESPONSE_BUFFER = 7,
    FRAME_LENGTH = 8,
    CHECK_OCTET = 9,
    SERVICE = 10,
    NO_INDEX = 11,
    NO_SUBINDEX = 12,
    WRONG_DIRECTION = 13,
    DATA_TOO_LONG = 14,
    DATA_TOO_SHORT = 15,
    WRITE_UNDER_KEYPAD = 16,
    NO_VALUE = 17,
    ABOVE_RANGE = 18,
    BELOW_RANGE = 19,
    UNKNOWN_COMMAND = 20,
    NOT_IN_STATE = 21,
};

/* The ErrorCodes of the denials from 11 on. */
static const uint16_t error_codes[] = {
    0x8011, 0x8012, 0x8023, 0x8033, 0x8034, 0x8021, 0x8030, 0x8031, 0x8032, 0x8035, 0x8036,
};

/* A reply: how many octets were written, or a denial and the object that it concerns. */
struct reply {
    uint8_t denial;
    uint8_t subindex;
    uint16_t index;
    uint32_t length;
};

enum reading { VALUE, BELOW, ABOVE, NO_DATA };

struct setup {
    const uint8_t *low;
    const uint8_t *high;
    size_t low_length;
    size_t high_length;
    uint32_t serial;
    uint16_t spread;
    uint16_t distance;
    uint8_t channels;
    int8_t scale;
    uint8_t capture;
};

struct request {
    const uint8_t *data;
    size_t length;
    uint16_t index;
    uint8_t subindex;
    bool write;
};

static inline struct reply done(uint32_t length)
{
    return (struct reply){ .length = length };
}

static inline struct reply denied(uint8_t denial)
{
    return (struct reply){ .denial = denial };
}

static inline uint16_t load16(const uint8_t *octets)
{
    return (uint16_t)(octets[0] << 8 | octets[1]);
}

static inline uint32_t load32(const uint8_t *octets)
{
    return (uint32_t)octets[0] << 24 | (uint32_t)octets[1] << 16 | (uint32_t)octets[2] << 8 | octets[3];
}

static inline void store16(uint8_t *out, uint16_t v)
{
    out[0] = (uint8_t)(v >> 8);
    out[1] = (uint8_t)v;
}

static inline void store32(uint8_t *out, uint32_t v)
{
    out[0] = (uint8_t)(v >> 24);
    out[1] = (uint8_t)(v >> 16);
    out[2] = (uint8_t)(v >> 8);
    out[3] = (uint8_t)v;
}

/* ISDU frames. */

static inline uint8_t exclusive_or(const uint8_t *octets, size_t n)
{
    uint8_t all = 0;
    for (size_t i = 0; i < n; i++)
        all ^= octets[i];
    return all;
}

static enum denial decode(const uint8_t *frame, size_t n, struct request *request)
{
    if (n == 0)
        return FRAME_LENGTH;
    size_t head = 1;
    size_t stated = frame[0] & 0x0f;
    if (stated == 1) {
        if (n < 2 || frame[1] < 17 || frame[1] > 238)
            return FRAME_LENGTH;
        stated = frame[1];
        head = 2;
    }
    if (stated != n)
        return FRAME_LENGTH;
    if (exclusive_or(frame, n) != 0)
        return CHECK_OCTET;
    const uint8_t *body = frame + head;
    size_t length = n - head - 1;
    size_t address;
    uint8_t service = frame[0] >> 4;
    switch (service) {
    case 0x1: case 0x9: address = 1; break;
    case 0x2: case 0xa: address = 2; break;
    case 0x3: case 0xb: address = 3; break;
    default: return SERVICE;
    }
    if (length < address)
        return SERVICE;
    request->write = service < 8;
    request->index = address == 3 ? load16(body) : body[0];
    request->subindex = address == 1 ? 0 : body[address - 1];
    request->data = body + address;
    request->length = length - address;
    if (request->write ? request->length == 0 : request->length != 0 || head == 2)
        return SERVICE;
    return DONE;
}

static inline struct reply confirm_write(uint8_t *out)
{
    out[0] = 0x52;
    out[1] = 0x52;
    return done(2);
}

/* Puts first and check octet around the n octets of an object that stand in the buffer from its second octet on. */
static inline struct reply confirm_read(uint8_t *out, size_t n)
{
    out[0] = (uint8_t)(0xd0 | (n + 2));
    out[n + 1] = exclusive_or(out, n + 1);
    return done((uint32_t)n + 2);
}

/* Writes the negative response of a denial from 11 on. */
static struct reply refuse(const struct request *request, uint8_t denial, uint8_t subindex, uint8_t *out)
{
    uint16_t code = error_codes[denial - NO_INDEX];
    out[0] = request->write ? 0x44 : 0xc4;
    store16(out + 1, code);
    out[3] = (uint8_t)(out[0] ^ out[1] ^ out[2]);
    return (struct reply){ .denial = denial, .subindex = subindex, .index = request->index };
}

/* The objects. */

enum object { SYSTEM_COMMAND, TEACH_SELECT, TEACH_RESULT, SETPOINTS, CONFIGURATION };

struct target {
    uint8_t object;
    uint8_t row; /* of setpoints and configuration: the channel, counted from 0 */
};

static inline bool find_object(uint16_t index, uint8_t channels, struct target *target)
{
    uint16_t place;
    switch (index) {
    case 2: target->object = SYSTEM_COMMAND; return true;
    case 58: target->object = TEACH_SELECT; return true;
    case 59: target->object = TEACH_RESULT; return true;
    }
    if (index >= 60 && index <= 63)
        place = index - 60;
    else if (index >= 0x4000 && index <= 0x400b)
        place = index - 0x4000 + 4;
    else
        return false;
    target->row = (uint8_t)(place / 2);
    target->object = place % 2 == 0 ? SETPOINTS : CONFIGURATION;
    return target->row < channels;
}

static inline size_t object_length(uint8_t object, uint8_t subindex, size_t width)
{
    switch (object) {
    case SETPOINTS: return subindex == 0 ? 2 * width : width;
    case CONFIGURATION: return subindex == 0 ? 4 : subindex == 3 ? 2 : 1;
    default: return 1;
    }
}

static inline enum denial check_access(const struct request *request, uint8_t object, size_t width, bool keypad)
{
    uint8_t parts = object == SETPOINTS ? 2 : object == CONFIGURATION ? 3 : 0;
    if (request->subindex > parts)
        return NO_SUBINDEX;
    if (object == SYSTEM_COMMAND && !request->write)
        return WRONG_DIRECTION;
    if (object == TEACH_RESULT && request->write)
        return WRONG_DIRECTION;
    if (request->write) {
        size_t length = object_length(object, request->subindex, width);
        if (request->length > length)
            return DATA_TOO_LONG;
        if (request->length < length)
            return DATA_TOO_SHORT;
        if (keypad)
            return WRITE_UNDER_KEYPAD;
    }
    return DONE;
}

/* The teach commands. */

enum step { NO_COMMAND, APPLY, SINGLE, POINT, START, STOP, CANCEL };

struct command {
    uint8_t step;
    uint8_t setpoint;
    uint8_t teachpoint;
};

/* By the low digit of the code, whose high digit is 4. */
static const struct command commands[16] = {
    [0x0] = { APPLY, 0, 0 },  [0x1] = { SINGLE, 0, 0 }, [0x2] = { SINGLE, 1, 0 }, [0x3] = { POINT, 0, 0 },
    [0x4] = { POINT, 0, 1 },  [0x5] = { POINT, 1, 0 },  [0x6] = { POINT, 1, 1 },  [0x7] = { START, 0, 0 },
    [0x8] = { STOP, 0, 0 },   [0x9] = { START, 1, 0 },  [0xa] = { STOP, 1, 0 },   [0xf] = { CANCEL, 0, 0 },
};

enum state { IDLE, BUSY_SINGLE, BUSY_TWO, WAIT_TWO, DYN_START, WAIT_DYN };

/* Both flags of a setpoint, in bits 4 to 7 as TeachResult shows them. */
static inline uint8_t flags_of(uint8_t setpoint)
{
    return setpoint == 0 ? 0x30 : 0xc0;
}

/* The kinds. */

#if KIND == 0 /* IntegerT16 */
typedef int16_t value;
#define WIDTH 2
#define LOWEST_END (-32000)
#define HIGHEST_END 32000
static const uint8_t substitutes[3][2] = { { 0x80, 0x08 }, { 0x7f, 0xf8 }, { 0x7f, 0xfc } };

static inline bool read_value(const uint8_t *octets, size_t n, int16_t *v)
{
    if (n != 2)
        return false;
    *v = (int16_t)load16(octets);
    return true;
}

static inline void write_value(int16_t v, uint8_t *out)
{
    store16(out, (uint16_t)v);
}

static inline int16_t raised(int16_t v, uint16_t steps)
{
    int32_t sum = (int32_t)v + steps;
    return (int16_t)(sum > INT16_MAX ? INT16_MAX : sum);
}

static inline int16_t lowered(int16_t v, uint16_t steps)
{
    int32_t difference = (int32_t)v - steps;
    return (int16_t)(difference < INT16_MIN ? INT16_MIN : difference);
}

static inline int16_t middle_of(int16_t a, int16_t b)
{
    return (int16_t)(((int32_t)a + b) >> 1);
}

#elif KIND == 1 /* IntegerT32 */
typedef int32_t value;
#define WIDTH 4
#define LOWEST_END (-2000000000)
#define HIGHEST_END 2000000000
static const uint8_t substitutes[3][4] = {
    { 0x80, 0x00, 0x00, 0x08 }, { 0x7f, 0xff, 0xff, 0xf8 }, { 0x7f, 0xff, 0xff, 0xfc },
};

static inline bool read_value(const uint8_t *octets, size_t n, int32_t *v)
{
    if (n != 4)
        return false;
    *v = (int32_t)load32(octets);
    return true;
}

static inline void write_value(int32_t v, uint8_t *out)
{
    store32(out, (uint32_t)v);
}

static inline int32_t raised(int32_t v, uint16_t steps)
{
    int64_t sum = (int64_t)v + steps;
    return (int32_t)(sum > INT32_MAX ? INT32_MAX : sum);
}

static inline int32_t lowered(int32_t v, uint16_t steps)
{
    int64_t difference = (int64_t)v - steps;
    return (int32_t)(difference < INT32_MIN ? INT32_MIN : difference);
}

static inline int32_t middle_of(int32_t a, int32_t b)
{
    return (int32_t)(((int64_t)a + b) >> 1);
}

#else /* Float32T */
typedef float value;
#define WIDTH 4
#define LOWEST_END (-1000000.0f)
#define HIGHEST_END 1000000.0f
static const uint8_t substitutes[3][4] = {
    { 0xff, 0x80, 0x00, 0x00 }, { 0x7f, 0x80, 0x00, 0x00 }, { 0x7f, 0xc0, 0x00, 0x00 },
};

static inline bool read_value(const uint8_t *octets, size_t n, float *v)
{
    if (n != 4)
        return false;
    uint32_t pattern = load32(octets);
    if ((pattern & 0x7fffffff) >= 0x7f800000)
        return false;
    if (pattern == 0x80000000)
        pattern = 0;
    memcpy(v, &pattern, sizeof pattern);
    return true;
}

static inline void write_value(float v, uint8_t *out)
{
    uint32_t pattern;
    memcpy(&pattern, &v, sizeof pattern);
    store32(out, pattern);
}

static inline float raised(float v, uint16_t steps)
{
    return v + (float)steps * 0.0009765625f;
}

static inline float lowered(float v, uint16_t steps)
{
    return v - (float)steps * 0.0009765625f;
}

static inline float middle_of(float a, float b)
{
    float lower = a <= b ? a : b;
    float higher = a <= b ? b : a;
    float sum = a * 0.5f + b * 0.5f;
    if (sum < lower)
        sum = lower;
    else if (sum > higher)
        sum = higher;
    return sum == 0.0f ? 0.0f : sum;
}

#endif

/* The sensor. */

struct row {
    uint16_t hysteresis;
    uint8_t logic;
    uint8_t mode;
    bool active;
    value sp1;
    value sp2;
};

struct teach {
    uint8_t state;
    uint8_t setpoint;   /* 0 SP1, 1 SP2 */
    uint8_t teachpoint; /* 0 TP1, 1 TP2 */
    uint8_t count;
    uint8_t flags;      /* in bits 4 to 7 */
    uint8_t taught;     /* 1 SP1, 2 SP2 */
    bool failed;
    value lowest;
    value highest;
    value points[2];
};

struct sensor {
    bool set_up;
    bool keypad;
    uint8_t channels;
    uint8_t scale;
    uint8_t selected; /* counted from 1 */
    uint8_t capture;
    uint16_t spread;
    uint16_t distance;
    uint32_t serial;
    value low;
    value high;
    struct teach teach;
    struct row rows[8];
};

/* Set-up. */

static inline struct reply set_up(struct sensor *s, const struct setup *setup)
{
    value low, high;
    if (s->set_up && s->keypad)
        return denied(SETUP_UNDER_KEYPAD);
    if (setup->channels < 1 || setup->channels > 8)
        return denied(CHANNEL_COUNT);
    if (!read_value(setup->low, setup->low_length, &low) || !read_value(setup->high, setup->high_length, &high))
        return denied(NO_VALUE);
    if (low >= high || low < LOWEST_END || high > HIGHEST_END)
        return denied(RANGE);
    if (setup->capture < 1 || setup->capture > 64)
        return denied(CAPTURE_LENGTH);
    memset(s, 0, sizeof *s);
    s->set_up = true;
    s->channels = setup->channels;
    s->scale = (uint8_t)setup->scale;
    s->selected = 1;
    s->capture = setup->capture;
    s->spread = setup->spread;
    s->distance = setup->distance;
    s->serial = setup->serial;
    s->low = low;
    s->high = high;
    for (int i = 0; i < 8; i++) {
        s->rows[i].mode = 1;
        s->rows[i].sp1 = low;
        s->rows[i].sp2 = high;
    }
    return done(0);
}

/* Teach. */

static inline void store_setpoint(struct sensor *s, value v)
{
    struct row *row = &s->rows[s->selected - 1];
    if (s->teach.setpoint == 0)
        row->sp1 = v;
    else
        row->sp2 = v;
    s->teach.taught |= (uint8_t)(1 << s->teach.setpoint);
    s->teach.failed = false;
}

static inline enum denial command(struct sensor *s, uint8_t code)
{
    struct teach *t = &s->teach;
    struct command command = commands[code & 0x0f];
    if (code >> 4 != 4 || command.step == NO_COMMAND)
        return UNKNOWN_COMMAND;
    switch (t->state) {
    case IDLE:
        switch (command.step) {
        case SINGLE: t->state = BUSY_SINGLE; break;
        case POINT: t->state = BUSY_TWO; break;
        case START: t->state = DYN_START; break;
        default: return NOT_IN_STATE;
        }
        t->setpoint = command.setpoint;
        t->teachpoint = command.teachpoint;
        t->count = 0;
        t->flags &= (uint8_t)~flags_of(command.setpoint);
        t->failed = false;
        return DONE;
    case WAIT_TWO:
        if (command.step == POINT && command.setpoint == t->setpoint) {
            t->state = BUSY_TWO;
            t->teachpoint = command.teachpoint;
            t->count = 0;
            return DONE;
        }
        if (command.step == APPLY && (t->flags & flags_of(t->setpoint)) == flags_of(t->setpoint)) {
            value a = t->points[0], b = t->points[1];
            value lower = a <= b ? a : b, higher = a <= b ? b : a;
            t->state = IDLE;
            if (higher < raised(lower, s->distance))
                t->failed = true;
            else
                store_setpoint(s, middle_of(a, b));
            return DONE;
        }
        break;
    case WAIT_DYN:
        if (command.step == START && command.setpoint == t->setpoint) {
            t->state = DYN_START;
            return DONE;
        }
        if (command.step == STOP && command.setpoint == t->setpoint) {
            t->state = IDLE;
            if (t->highest < raised(t->lowest, s->distance))
                t->failed = true;
            else
                store_setpoint(s, middle_of(t->lowest, t->highest));
            return DONE;
        }
        break;
    default:
        return NOT_IN_STATE;
    }
    if (command.step != CANCEL)
        return NOT_IN_STATE;
    t->flags &= (uint8_t)~flags_of(t->setpoint);
    t->failed = false;
    t->state = IDLE;
    return DONE;
}

static inline void widen(struct teach *t, value v)
{
    if (v < t->lowest)
        t->lowest = v;
    if (v > t->highest)
        t->highest = v;
}

static inline void feed(struct sensor *s, value v)
{
    struct teach *t = &s->teach;
    switch (t->state) {
    case BUSY_SINGLE:
    case BUSY_TWO:
        if (t->count == 0)
            t->lowest = t->highest = v;
        else
            widen(t, v);
        if (++t->count < s->capture)
            return;
        if (t->state == BUSY_TWO) {
            t->points[t->teachpoint] = middle_of(t->lowest, t->highest);
            t->flags |= (uint8_t)(0x10 << (2 * t->setpoint + t->teachpoint));
            t->state = WAIT_TWO;
            return;
        }
        t->state = IDLE;
        if (t->highest > raised(t->lowest, s->spread))
            t->failed = true;
        else
            store_setpoint(s, middle_of(t->lowest, t->highest));
        return;
    case DYN_START:
        t->lowest = t->highest = v;
        t->state = WAIT_DYN;
        return;
    case WAIT_DYN:
        widen(t, v);
        return;
    default:
        return;
    }
}

static inline uint8_t teach_result(const struct teach *t)
{
    static const uint8_t shown[] = { [BUSY_SINGLE] = 5, [BUSY_TWO] = 5, [WAIT_TWO] = 4, [DYN_START] = 5, [WAIT_DYN] = 4 };
    uint8_t state = t->state != IDLE ? shown[t->state] : t->failed ? 7 : t->taught;
    return state | t->flags;
}

/* Samples. */

static inline void judge(struct row *row, value v)
{
    value lo = row->sp1 <= row->sp2 ? row->sp1 : row->sp2;
    value hi = row->sp1 <= row->sp2 ? row->sp2 : row->sp1;
    switch (row->mode) {
    case 0:
        row->active = false;
        break;
    case 1:
        if (v >= row->sp1)
            row->active = true;
        else if (v < lowered(row->sp1, row->hysteresis))
            row->active = false;
        break;
    case 2:
        if (lo <= v && v <= hi)
            row->active = true;
        else if (v < lowered(lo, row->hysteresis) || v > raised(hi, row->hysteresis))
            row->active = false;
        break;
    default:
        if (v >= hi)
            row->active = true;
        else if (v <= lo)
            row->active = false;
        break;
    }
}

static inline struct reply sample(struct sensor *s, enum reading reading, const uint8_t *octets, size_t n,
                                     uint8_t *out, size_t room)
{
    value v = 0;
    if (!s->set_up)
        return denied(BLANK);
    if (reading == VALUE && !read_value(octets, n, &v))
        return denied(NO_VALUE);
    if (room < WIDTH + 2)
        return denied(BUFFER_TOO_SHORT);
    if (reading == VALUE) {
        if (v < s->low)
            reading = BELOW;
        else if (v > s->high)
            reading = ABOVE;
    }
    uint8_t signals = 0;
    for (uint8_t i = 0; i < s->channels; i++) {
        struct row *row = &s->rows[i];
        if (reading == VALUE)
            judge(row, v);
        if (row->mode != 0 && row->active != row->logic)
            signals |= (uint8_t)(1 << i);
    }
    if (reading == VALUE) {
        feed(s, v);
        write_value(v, out);
    } else {
        memcpy(out, substitutes[reading - BELOW], WIDTH);
    }
    out[WIDTH] = s->scale;
    out[WIDTH + 1] = signals;
    return done(WIDTH + 2);
}

/* Requests. */

static inline enum denial check_setpoint(const struct sensor *s, const uint8_t *octets, value *v)
{
    if (!read_value(octets, WIDTH, v))
        return NO_VALUE;
    if (*v > s->high)
        return ABOVE_RANGE;
    if (*v < s->low)
        return BELOW_RANGE;
    return DONE;
}

/* Writes setpoints. A denial comes with the subindex of the part that failed. */
static inline enum denial write_setpoints(struct sensor *s, struct row *row, const struct request *request,
                                             uint8_t *subindex)
{
    value first, second;
    enum denial denial = check_setpoint(s, request->data, &first);
    switch (request->subindex) {
    case 0:
        *subindex = 1;
        if (denial != DONE)
            return denial;
        *subindex = 2;
        denial = check_setpoint(s, request->data + WIDTH, &second);
        if (denial != DONE)
            return denial;
        row->sp1 = first;
        row->sp2 = second;
        return DONE;
    case 1:
        if (denial == DONE)
            row->sp1 = first;
        return denial;
    default:
        if (denial == DONE)
            row->sp2 = first;
        return denial;
    }
}

static inline enum denial write_configuration(struct row *row, const struct request *request, uint8_t *subindex)
{
    const uint8_t *data = request->data;
    switch (request->subindex) {
    case 0:
        if (data[0] > 1) {
            *subindex = 1;
            return NO_VALUE;
        }
        if (data[1] > 3) {
            *subindex = 2;
            return NO_VALUE;
        }
        row->logic = data[0];
        row->mode = data[1];
        row->hysteresis = load16(data + 2);
        return DONE;
    case 1:
        if (data[0] > 1)
            return NO_VALUE;
        row->logic = data[0];
        return DONE;
    case 2:
        if (data[0] > 3)
            return NO_VALUE;
        row->mode = data[0];
        return DONE;
    default:
        row->hysteresis = load16(data);
        return DONE;
    }
}

static inline enum denial select_channel(struct sensor *s, uint8_t channel)
{
    if (channel > s->channels)
        return NO_VALUE;
    s->selected = channel == 0 ? 1 : channel;
    memset(&s->teach, 0, sizeof s->teach);
    return DONE;
}

static inline struct reply perform_write(struct sensor *s, const struct request *request, struct target target,
                                            uint8_t *out)
{
    uint8_t subindex = request->subindex;
    enum denial denial;
    switch (target.object) {
    case SYSTEM_COMMAND: denial = command(s, request->data[0]); break;
    case TEACH_SELECT: denial = select_channel(s, request->data[0]); break;
    case SETPOINTS: denial = write_setpoints(s, &s->rows[target.row], request, &subindex); break;
    default: denial = write_configuration(&s->rows[target.row], request, &subindex); break;
    }
    return denial == DONE ? confirm_write(out) : refuse(request, denial, subindex, out);
}

static inline size_t read_setpoints(const struct row *row, uint8_t subindex, uint8_t *out)
{
    switch (subindex) {
    case 0:
        write_value(row->sp1, out);
        write_value(row->sp2, out + WIDTH);
        return 2 * WIDTH;
    case 1: write_value(row->sp1, out); return WIDTH;
    default: write_value(row->sp2, out); return WIDTH;
    }
}

static inline size_t read_configuration(const struct row *row, uint8_t subindex, uint8_t *out)
{
    switch (subindex) {
    case 0:
        out[0] = row->logic;
        out[1] = row->mode;
        store16(out + 2, row->hysteresis);
        return 4;
    case 1: out[0] = row->logic; return 1;
    case 2: out[0] = row->mode; return 1;
    default: store16(out, row->hysteresis); return 2;
    }
}

static inline struct reply perform_read(const struct sensor *s, uint8_t subindex, struct target target, uint8_t *out)
{
    size_t n = 1;
    switch (target.object) {
    case TEACH_SELECT: out[1] = s->selected; break;
    case TEACH_RESULT: out[1] = teach_result(&s->teach); break;
    case SETPOINTS: n = read_setpoints(&s->rows[target.row], subindex, out + 1); break;
    default: n = read_configuration(&s->rows[target.row], subindex, out + 1); break;
    }
    return confirm_read(out, n);
}

static inline struct reply request(struct sensor *s, const uint8_t *frame, size_t n, uint8_t *out, size_t room)
{
    struct request request;
    struct target target;
    if (!s->set_up)
        return denied(BLANK);
    if (room < 16)
        return denied(RESPONSE_BUFFER);
    enum denial denial = decode(frame, n, &request);
    if (denial != DONE)
        return denied(denial);
    if (!find_object(request.index, s->channels, &target))
        return refuse(&request, NO_INDEX, request.subindex, out);
    denial = check_access(&request, target.object, WIDTH, s->keypad);
    if (denial != DONE)
        return refuse(&request, denial, request.subindex, out);
    if (request.write)
        return perform_write(s, &request, target, out);
    return perform_read(s, request.subindex, target, out);
}

/* The calls of the rows. The next three are never inlined, so that what a call takes can be counted by their names. */

__attribute__((noipa)) struct reply timed_set_up(struct sensor *s, const struct setup *setup)
{
    return set_up(s, setup);
}

__attribute__((noipa)) struct reply timed_sample(struct sensor *s, enum reading reading, const uint8_t *octets,
                                                    size_t n, uint8_t *out, size_t room)
{
    return sample(s, reading, octets, n, out, room);
}

__attribute__((noipa)) struct reply timed_request(struct sensor *s, const uint8_t *frame, size_t n, uint8_t *out,
                                                     size_t room)
{
    return request(s, frame, n, out, room);
}

static struct reply perform_row(struct sensor *s, const uint8_t *row, uint8_t *out)
{
    const uint8_t *octets = row + 3;
    size_t room = row[2] < 64 ? row[2] : 64;
    switch (row[0]) {
    case 1: {
        struct setup setup = {
            .low = octets + 12,
            .low_length = octets[11],
            .high = octets + 12 + octets[11],
            .high_length = (size_t)row[1] - 12 - octets[11],
            .serial = load32(octets),
            .channels = octets[4],
            .scale = (int8_t)octets[5],
            .capture = octets[6],
            .spread = load16(octets + 7),
            .distance = load16(octets + 9),
        };
        return timed_set_up(s, &setup);
    }
    case 2: case 3: case 4: case 5:
        return timed_sample(s, row[0] - 2, octets, row[1], out, room);
    case 6:
        return timed_request(s, octets, row[1], out, room);
    default:
        return done(0);
    }
}

static uint32_t make(struct sensor *s, const uint8_t *rows, size_t n)
{
    uint32_t sum = 0;
    uint8_t out[64] = { 0 };
    for (size_t i = 0; i + 64 <= n; i += 64) {
        struct reply reply = perform_row(s, rows + i, out);
        sum = sum * 31 + reply.denial + (reply.denial == 0 ? (uint8_t)reply.length : reply.subindex) + out[3];
    }
    return sum;
}

uint32_t hand_c_run(const uint8_t *first, size_t first_length, const uint8_t *rows, size_t n, uint32_t times)
{
    struct sensor sensor = { 0 };
    uint32_t sum = make(&sensor, first, first_length);
    for (uint32_t i = 0; i < times; i++)
        sum = sum * 31 + make(&sensor, rows, n);
    return sum;
}

void hand_c_trace(const uint8_t *rows, size_t n, uint8_t *log, size_t log_length)
{
    struct sensor sensor = { 0 };
    for (size_t i = 0; i + 64 <= n && log_length >= 68; i += 64, log += 68, log_length -= 68) {
        memset(log + 4, 0xaa, 64);
        struct reply reply = perform_row(&sensor, rows + i, log + 4);
        log[0] = reply.denial;
        log[1] = reply.denial == 0 ? (uint8_t)reply.length : reply.subindex;
        store16(log + 2, reply.index);
    }
}

size_t hand_c_size(void)
{
    return sizeof(struct sensor);
}
