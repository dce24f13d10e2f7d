#include "forms.h"

#define NO_RANGE EMPTY, EMPTY
#define LAST_MINUTE (DAIRYEPOCH_MINUTES - 1)

const struct shape station_shape = {
    "S",
    "S,station,change minutes,change penalty",
    STATION_FIELDS,
    {
        {"S", false, NO_RANGE},
        {"station", false, NO_RANGE},
        {"change minutes", false, 0, 240},
        {"change penalty", false, 1, 1000},
    },
};

const struct shape walk_shape = {
    "W",
    "W,from,to,minutes,penalty",
    WALK_FIELDS,
    {
        {"W", false, NO_RANGE},
        {"from", false, NO_RANGE},
        {"to", false, NO_RANGE},
        {"minutes", false, 1, 60},
        {"penalty", false, 1, 1000},
    },
};

const struct shape stop_shape = {
    "T",
    "T,trip,stop,station,arrive,depart,ride penalty,mark",
    STOP_FIELDS,
    {
        {"T", false, NO_RANGE},
        {"trip", false, NO_RANGE},
        {"stop", false, NO_RANGE},
        {"station", false, NO_RANGE},
        {"arrive", true, 0, LAST_MINUTE},
        {"depart", true, 0, LAST_MINUTE},
        {"ride penalty", false, 0, 100},
        {"mark", false, BOTH, SETTING_DOWN_ONLY},
    },
};

const struct shape *shape_of(const struct line *line)
{
    if (is_text(&line->field[0], station_shape.letter)) {
        return &station_shape;
    }
    if (is_text(&line->field[0], walk_shape.letter)) {
        return &walk_shape;
    }
    return is_text(&line->field[0], stop_shape.letter) ? &stop_shape : NULL;
}

bool in_range(const struct form *form, const struct field *field)
{
    int value = form->time ? minute_of(field) : number_of(field);

    if (form->most == EMPTY || field->length == 0) {
        return true;
    }
    if (form->time && field->begin[3] > '5') {
        return false;
    }
    return form->least <= value && value <= form->most;
}
