/* Two elements for GStreamer over libccsuite, an example: nothing here is proved, as the library is.
 *
 *   ccsuitebuild location=LIST ! closedcaption/x-cea-708,format=cdp ! ..
 *       A source of the captions of a cue list: a buffer for each frame at the list's rate, with its time; format=cdp or format=cc_data.
 *   .. ! ccsuitecheck location=LIST ! ..
 *       Lets captions of either format pass as they are, and verifies them against a cue list. At the first finding, or at the end, a message of the
 *       element named `ccsuitecheck` has the status and the line of the verdict; if it isn't OK, and fail=true, the pipeline ends with an error.
 */
#include <ccsuite.h>
#include <gst/base/gstbasetransform.h>
#include <gst/base/gstpushsrc.h>
#include <gst/gst.h>
#include <string.h>

#define PACKAGE "ccsuite"
#define CAPTIONS "closedcaption/x-cea-708, format=(string){ cdp, cc_data }, framerate=(fraction)"
/* by the code of SMPTE ST 334-2: frames a second, and the triplets of a frame */
static const struct {
    gint num, den;
    guint triplets;
} rates[] = {{0, 1, 0},      {24000, 1001, 25}, {24, 1, 25}, {25, 1, 24},      {30000, 1001, 20},
             {30, 1, 20},    {50, 1, 12},       {60000, 1001, 10}, {60, 1, 10}};

static GstStaticPadTemplate list_template =
    GST_STATIC_PAD_TEMPLATE("src", GST_PAD_SRC, GST_PAD_ALWAYS, GST_STATIC_CAPS(CAPTIONS "{ 30000/1001, 30/1, 60000/1001, 60/1 }"));
static GstStaticPadTemplate in_template = GST_STATIC_PAD_TEMPLATE("sink", GST_PAD_SINK, GST_PAD_ALWAYS, GST_STATIC_CAPS(CAPTIONS "[ 0/1, 60/1 ]"));
static GstStaticPadTemplate out_template = GST_STATIC_PAD_TEMPLATE("src", GST_PAD_SRC, GST_PAD_ALWAYS, GST_STATIC_CAPS(CAPTIONS "[ 0/1, 60/1 ]"));

enum { PROP_0, PROP_LOCATION, PROP_FAIL };

/* Whether captions of these caps are distribution packets. */
static gboolean is_cdp(GstCaps *caps) {
    return g_strcmp0(gst_structure_get_string(gst_caps_get_structure(caps, 0), "format"), "cdp") == 0;
}

/* The bytes of a file, or NULL, and then the element has told why. */
static guint8 *read_list(GstElement *element, const gchar *location, gsize *size) {
    GError *error = NULL;
    gchar *bytes = NULL;
    if (!location)
        GST_ELEMENT_ERROR(element, RESOURCE, NOT_FOUND, ("No cue list is given: set location"), (NULL));
    else if (!g_file_get_contents(location, &bytes, size, &error))
        GST_ELEMENT_ERROR(element, RESOURCE, OPEN_READ, ("%s", error->message), (NULL));
    g_clear_error(&error);
    return (guint8 *)bytes;
}

/* Tells why a list is refused: the line of the report without its end. */
static void refuse_list(GstElement *element, const gchar *location, const ccsuite_report *report) {
    GST_ELEMENT_ERROR(element, STREAM, DECODE, ("%s: %.*s", location, (int)strcspn(report->text, "\n"), report->text), (NULL));
}

/* ---- ccsuitebuild ------------------------------------------------------------------------------------------------------------------------- */

G_DECLARE_FINAL_TYPE(GstCcsuiteBuild, gst_ccsuite_build, GST, CCSUITE_BUILD, GstPushSrc)
struct _GstCcsuiteBuild {
    GstPushSrc parent;
    gchar *location;
    ccsuite_builder builder;
    guint64 frame;     /* the number of the next frame */
    gboolean has_next; /* whether there is one */
    guint rate;        /* its rate, by its code */
    guint8 cdp[CCSUITE_CDP_ROOM], cc_data[CCSUITE_CC_DATA_ROOM];
    size_t cdp_size, cc_data_size;
    gboolean as_cdp;
};
G_DEFINE_TYPE(GstCcsuiteBuild, gst_ccsuite_build, GST_TYPE_PUSH_SRC)

/* Fetches the captions of the next frame, as a distribution packet and as its triplets. */
static void fetch(GstCcsuiteBuild *self) {
    guint8 words[CCSUITE_PACKET_ROOM];
    ccsuite_packet packet;
    size_t size;
    self->has_next = ccsuite_builder_next(&self->builder, words, sizeof words, &size) == CCSUITE_OK &&
                     ccsuite_cdp_from_words(words, size, self->cdp, sizeof self->cdp, &self->cdp_size) == CCSUITE_OK &&
                     ccsuite_cc_data_from_words(words, size, self->cc_data, sizeof self->cc_data, &self->cc_data_size, &packet) == CCSUITE_OK;
    if (self->has_next) self->rate = packet.rate;
}

static gboolean build_start(GstBaseSrc *source) {
    GstCcsuiteBuild *self = GST_CCSUITE_BUILD(source);
    ccsuite_report report;
    gsize size = 0;
    guint8 *list = read_list(GST_ELEMENT(self), self->location, &size);
    if (!list) return FALSE;
    ccsuite_builder_open(list, size, &self->builder, &report);
    g_free(list);
    if (report.status != CCSUITE_OK) {
        refuse_list(GST_ELEMENT(self), self->location, &report);
        return FALSE;
    }
    self->frame = 0;
    fetch(self);
    return TRUE;
}

static gboolean build_stop(GstBaseSrc *source) {
    ccsuite_builder_close(&GST_CCSUITE_BUILD(source)->builder);
    GST_CCSUITE_BUILD(source)->has_next = FALSE;
    return TRUE;
}

/* Captions of the list's rate, once the list is read. */
static GstCaps *build_get_caps(GstBaseSrc *source, GstCaps *filter) {
    GstCcsuiteBuild *self = GST_CCSUITE_BUILD(source);
    GstCaps *caps = gst_pad_get_pad_template_caps(GST_BASE_SRC_PAD(source)), *common;
    if (self->has_next) {
        caps = gst_caps_make_writable(caps);
        gst_caps_set_simple(caps, "framerate", GST_TYPE_FRACTION, rates[self->rate].num, rates[self->rate].den, NULL);
    }
    if (!filter) return caps;
    common = gst_caps_intersect_full(filter, caps, GST_CAPS_INTERSECT_FIRST);
    gst_caps_unref(caps);
    return common;
}

static gboolean build_set_caps(GstBaseSrc *source, GstCaps *caps) {
    GST_CCSUITE_BUILD(source)->as_cdp = is_cdp(caps);
    return TRUE;
}

static GstFlowReturn build_create(GstPushSrc *source, GstBuffer **buffer) {
    GstCcsuiteBuild *self = GST_CCSUITE_BUILD(source);
    gint num = rates[self->rate].num, den = rates[self->rate].den;
    if (!self->has_next) return GST_FLOW_EOS;
    *buffer = self->as_cdp ? gst_buffer_new_memdup(self->cdp, self->cdp_size) : gst_buffer_new_memdup(self->cc_data, self->cc_data_size);
    GST_BUFFER_PTS(*buffer) = GST_BUFFER_DTS(*buffer) = gst_util_uint64_scale(self->frame, GST_SECOND * den, num);
    GST_BUFFER_DURATION(*buffer) = gst_util_uint64_scale(self->frame + 1, GST_SECOND * den, num) - GST_BUFFER_PTS(*buffer);
    GST_BUFFER_OFFSET(*buffer) = self->frame++;
    fetch(self);
    return GST_FLOW_OK;
}

static void build_set_property(GObject *object, guint id, const GValue *value, GParamSpec *spec) {
    if (id == PROP_LOCATION) {
        g_free(GST_CCSUITE_BUILD(object)->location);
        GST_CCSUITE_BUILD(object)->location = g_value_dup_string(value);
    } else
        G_OBJECT_WARN_INVALID_PROPERTY_ID(object, id, spec);
}

static void build_get_property(GObject *object, guint id, GValue *value, GParamSpec *spec) {
    if (id == PROP_LOCATION)
        g_value_set_string(value, GST_CCSUITE_BUILD(object)->location);
    else
        G_OBJECT_WARN_INVALID_PROPERTY_ID(object, id, spec);
}

static void build_finalize(GObject *object) {
    ccsuite_builder_close(&GST_CCSUITE_BUILD(object)->builder);
    g_free(GST_CCSUITE_BUILD(object)->location);
    G_OBJECT_CLASS(gst_ccsuite_build_parent_class)->finalize(object);
}

static void gst_ccsuite_build_class_init(GstCcsuiteBuildClass *class) {
    GObjectClass *object = G_OBJECT_CLASS(class);
    GstBaseSrcClass *source = GST_BASE_SRC_CLASS(class);
    object->set_property = build_set_property;
    object->get_property = build_get_property;
    object->finalize = build_finalize;
    g_object_class_install_property(object, PROP_LOCATION,
                                    g_param_spec_string("location", "Location", "The file of the cue list", NULL,
                                                        G_PARAM_READWRITE | G_PARAM_STATIC_STRINGS | GST_PARAM_MUTABLE_READY));
    source->start = build_start;
    source->stop = build_stop;
    source->get_caps = build_get_caps;
    source->set_caps = build_set_caps;
    GST_PUSH_SRC_CLASS(class)->create = build_create;
    gst_element_class_add_static_pad_template(GST_ELEMENT_CLASS(class), &list_template);
    gst_element_class_set_static_metadata(GST_ELEMENT_CLASS(class), "Captions of a cue list", "Source/ClosedCaption",
                                          "Makes the captions of a cue list, frame by frame", "ccsuite");
}

static void gst_ccsuite_build_init(GstCcsuiteBuild *self) {
    gst_base_src_set_format(GST_BASE_SRC(self), GST_FORMAT_TIME);
}

/* ---- ccsuitecheck ------------------------------------------------------------------------------------------------------------------------- */

G_DECLARE_FINAL_TYPE(GstCcsuiteCheck, gst_ccsuite_check, GST, CCSUITE_CHECK, GstBaseTransform)
struct _GstCcsuiteCheck {
    GstBaseTransform parent;
    gchar *location;
    gboolean fail;
    ccsuite_verifier verifier;
    gboolean told;  /* the verdict was told */
    guint frames;   /* how many frames came */
    guint rate;     /* of cc_data, by its code; 0 of distribution packets */
};
G_DEFINE_TYPE(GstCcsuiteCheck, gst_ccsuite_check, GST_TYPE_BASE_TRANSFORM)

static gboolean check_start(GstBaseTransform *base) {
    GstCcsuiteCheck *self = GST_CCSUITE_CHECK(base);
    ccsuite_report report;
    gsize size = 0;
    guint8 *list = read_list(GST_ELEMENT(self), self->location, &size);
    if (!list) return FALSE;
    ccsuite_verifier_open(list, size, &self->verifier, &report);
    g_free(list);
    self->told = FALSE;
    self->frames = 0;
    if (report.status != CCSUITE_OK) refuse_list(GST_ELEMENT(self), self->location, &report);
    return report.status == CCSUITE_OK;
}

static gboolean check_stop(GstBaseTransform *base) {
    ccsuite_verifier_close(&GST_CCSUITE_CHECK(base)->verifier);
    return TRUE;
}

static gboolean check_set_caps(GstBaseTransform *base, GstCaps *caps, GstCaps *out) {
    GstCcsuiteCheck *self = GST_CCSUITE_CHECK(base);
    gint num = 0, den = 1;
    (void)out;
    self->rate = 0;
    if (is_cdp(caps)) return TRUE;
    gst_structure_get_fraction(gst_caps_get_structure(caps, 0), "framerate", &num, &den);
    for (guint code = 1; code < G_N_ELEMENTS(rates); code++)
        if ((gint64)num * rates[code].den == (gint64)rates[code].num * den) self->rate = code;
    if (!self->rate) GST_ELEMENT_ERROR(self, STREAM, FORMAT, ("No distribution packet has the rate %d/%d", num, den), (NULL));
    return self->rate > 0;
}

/* Tells a verdict, once. Whether the pipeline may go on. */
static gboolean tell(GstCcsuiteCheck *self, guint status, const gchar *text, guint frame) {
    GstStructure *told = gst_structure_new("ccsuitecheck", "status", G_TYPE_UINT, status, "text", G_TYPE_STRING, text, "frame", G_TYPE_UINT, frame, NULL);
    self->told = TRUE;
    gst_element_post_message(GST_ELEMENT(self), gst_message_new_element(GST_OBJECT(self), told));
    if (status == CCSUITE_OK || !self->fail) return TRUE;
    GST_ELEMENT_ERROR(self, STREAM, FAILED, ("%s: %s", self->location, text), (NULL));
    return FALSE;
}

/* The verdict on what has come. */
static gboolean tell_verdict(GstCcsuiteCheck *self) {
    ccsuite_report report;
    if (self->told || ccsuite_verifier_verdict(&self->verifier, &report) == CCSUITE_CLOSED) return TRUE;
    g_strchomp(report.text);
    return tell(self, report.status, report.status == CCSUITE_OK ? "ok" : report.text, report.frame);
}

/* The words of a frame's triplets, filled up with triplets that don't count: GStreamer may have left these out. Whether they are a frame's. */
static gboolean words_of_cc_data(GstCcsuiteCheck *self, const GstMapInfo *map, guint8 *words, size_t *size) {
    guint8 cc_data[CCSUITE_CC_DATA_SIZE];
    guint8 *end = cc_data + map->size;
    if (map->size > sizeof cc_data) return FALSE;
    memcpy(cc_data, map->data, map->size);
    for (guint at = map->size / 3; at < rates[self->rate].triplets; at++, end += 3) memcpy(end, "\xFA\0\0", 3);
    return ccsuite_words_from_cc_data(cc_data, end - cc_data, self->rate, self->frames & 0xFFFF, words, CCSUITE_PACKET_ROOM, size) == CCSUITE_OK;
}

/* The words that carry a buffer's captions, in either format. Whether they are a frame's. */
static gboolean words_of(GstCcsuiteCheck *self, const GstMapInfo *map, guint8 *words, size_t *size) {
    if (self->rate) return words_of_cc_data(self, map, words, size);
    return ccsuite_words_from_cdp(map->data, map->size, words, CCSUITE_PACKET_ROOM, size) == CCSUITE_OK;
}

static GstFlowReturn check_transform_ip(GstBaseTransform *base, GstBuffer *buffer) {
    GstCcsuiteCheck *self = GST_CCSUITE_CHECK(base);
    guint8 words[CCSUITE_PACKET_ROOM];
    size_t size;
    ccsuite_fed fed;
    GstMapInfo map;
    gboolean right;
    if (self->told) return GST_FLOW_OK;
    if (!gst_buffer_map(buffer, &map, GST_MAP_READ)) return GST_FLOW_ERROR;
    right = words_of(self, &map, words, &size);
    gst_buffer_unmap(buffer, &map);
    if (!right) {
        const gchar *text = self->rate ? "malformed: no triplets of a frame" : "malformed: no distribution packet";
        return tell(self, CCSUITE_MALFORMED, text, self->frames) ? GST_FLOW_OK : GST_FLOW_ERROR;
    }
    self->frames++;
    if (ccsuite_verifier_feed(&self->verifier, words, size, &fed) == CCSUITE_OK) return GST_FLOW_OK;
    return tell_verdict(self) ? GST_FLOW_OK : GST_FLOW_ERROR;
}

static gboolean check_sink_event(GstBaseTransform *base, GstEvent *event) {
    if (GST_EVENT_TYPE(event) == GST_EVENT_EOS) tell_verdict(GST_CCSUITE_CHECK(base));
    return GST_BASE_TRANSFORM_CLASS(gst_ccsuite_check_parent_class)->sink_event(base, event);
}

static void check_set_property(GObject *object, guint id, const GValue *value, GParamSpec *spec) {
    GstCcsuiteCheck *self = GST_CCSUITE_CHECK(object);
    if (id == PROP_LOCATION) {
        g_free(self->location);
        self->location = g_value_dup_string(value);
    } else if (id == PROP_FAIL)
        self->fail = g_value_get_boolean(value);
    else
        G_OBJECT_WARN_INVALID_PROPERTY_ID(object, id, spec);
}

static void check_get_property(GObject *object, guint id, GValue *value, GParamSpec *spec) {
    if (id == PROP_LOCATION)
        g_value_set_string(value, GST_CCSUITE_CHECK(object)->location);
    else if (id == PROP_FAIL)
        g_value_set_boolean(value, GST_CCSUITE_CHECK(object)->fail);
    else
        G_OBJECT_WARN_INVALID_PROPERTY_ID(object, id, spec);
}

static void check_finalize(GObject *object) {
    ccsuite_verifier_close(&GST_CCSUITE_CHECK(object)->verifier);
    g_free(GST_CCSUITE_CHECK(object)->location);
    G_OBJECT_CLASS(gst_ccsuite_check_parent_class)->finalize(object);
}

static void gst_ccsuite_check_class_init(GstCcsuiteCheckClass *class) {
    GObjectClass *object = G_OBJECT_CLASS(class);
    GstBaseTransformClass *base = GST_BASE_TRANSFORM_CLASS(class);
    object->set_property = check_set_property;
    object->get_property = check_get_property;
    object->finalize = check_finalize;
    g_object_class_install_property(object, PROP_LOCATION,
                                    g_param_spec_string("location", "Location", "The file of the cue list", NULL,
                                                        G_PARAM_READWRITE | G_PARAM_STATIC_STRINGS | GST_PARAM_MUTABLE_READY));
    g_object_class_install_property(object, PROP_FAIL,
                                    g_param_spec_boolean("fail", "Fail", "Whether a finding ends the pipeline with an error", TRUE,
                                                         G_PARAM_READWRITE | G_PARAM_STATIC_STRINGS));
    base->start = check_start;
    base->stop = check_stop;
    base->set_caps = check_set_caps;
    base->sink_event = check_sink_event;
    base->transform_ip = check_transform_ip;
    base->passthrough_on_same_caps = TRUE;
    gst_element_class_add_static_pad_template(GST_ELEMENT_CLASS(class), &in_template);
    gst_element_class_add_static_pad_template(GST_ELEMENT_CLASS(class), &out_template);
    gst_element_class_set_static_metadata(GST_ELEMENT_CLASS(class), "Check of captions", "Filter/Analyzer/ClosedCaption",
                                          "Verifies captions against a cue list", "ccsuite");
}

static void gst_ccsuite_check_init(GstCcsuiteCheck *self) {
    self->fail = TRUE;
}

static gboolean plugin_init(GstPlugin *plugin) {
    return gst_element_register(plugin, "ccsuitebuild", GST_RANK_NONE, gst_ccsuite_build_get_type()) &&
           gst_element_register(plugin, "ccsuitecheck", GST_RANK_NONE, gst_ccsuite_check_get_type());
}

GST_PLUGIN_DEFINE(GST_VERSION_MAJOR, GST_VERSION_MINOR, ccsuite, "broadcast captions by libccsuite", plugin_init, CCSUITE_VERSION, GST_LICENSE_UNKNOWN,
                  PACKAGE, "ccsuite")
