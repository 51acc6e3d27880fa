//! A sequence header for the Rust.

use crate::include::dav1d::headers::Rav1dAdaptiveBoolean;
use crate::include::dav1d::headers::Rav1dChromaSamplePosition;
use crate::include::dav1d::headers::Rav1dColorPrimaries;
use crate::include::dav1d::headers::Rav1dMatrixCoefficients;
use crate::include::dav1d::headers::Rav1dPixelLayout;
use crate::include::dav1d::headers::Rav1dProfile;
use crate::include::dav1d::headers::Rav1dSequenceHeader;
use crate::include::dav1d::headers::Rav1dSequenceHeaderOperatingParameterInfo;
use crate::include::dav1d::headers::Rav1dSequenceHeaderOperatingPoint;
use crate::include::dav1d::headers::Rav1dTransferCharacteristics;
use crate::include::dav1d::headers::RAV1D_MAX_OPERATING_POINTS;

/// A sequence header with nothing in it, for the Rust has no default of one. Frame setup reads only
/// `sb128` and `order_hint_n_bits`.
pub const EMPTY: Rav1dSequenceHeader = Rav1dSequenceHeader {
    profile: Rav1dProfile::Main,
    max_width: 0,
    max_height: 0,
    layout: Rav1dPixelLayout::I400,
    pri: Rav1dColorPrimaries::UNKNOWN,
    trc: Rav1dTransferCharacteristics::UNKNOWN,
    mtrx: Rav1dMatrixCoefficients::UNKNOWN,
    chr: Rav1dChromaSamplePosition::Unknown,
    hbd: 0,
    color_range: 0,
    num_operating_points: 0,
    operating_points: [OPERATING_POINT; RAV1D_MAX_OPERATING_POINTS],
    still_picture: 0,
    reduced_still_picture_header: 0,
    timing_info_present: 0,
    num_units_in_tick: 0,
    time_scale: 0,
    equal_picture_interval: 0,
    num_ticks_per_picture: 0,
    decoder_model_info_present: 0,
    encoder_decoder_buffer_delay_length: 0,
    num_units_in_decoding_tick: 0,
    buffer_removal_delay_length: 0,
    frame_presentation_delay_length: 0,
    display_model_info_present: 0,
    width_n_bits: 0,
    height_n_bits: 0,
    frame_id_numbers_present: 0,
    delta_frame_id_n_bits: 0,
    frame_id_n_bits: 0,
    sb128: 0,
    filter_intra: 0,
    intra_edge_filter: 0,
    inter_intra: 0,
    masked_compound: 0,
    warped_motion: 0,
    dual_filter: 0,
    order_hint: 0,
    jnt_comp: 0,
    ref_frame_mvs: 0,
    screen_content_tools: Rav1dAdaptiveBoolean::Off,
    force_integer_mv: Rav1dAdaptiveBoolean::Off,
    order_hint_n_bits: 0,
    super_res: 0,
    cdef: 0,
    restoration: 0,
    ss_hor: 0,
    ss_ver: 0,
    monochrome: 0,
    color_description_present: 0,
    separate_uv_delta_q: 0,
    film_grain_present: 0,
    operating_parameter_info: [OPERATING_PARAMETERS; RAV1D_MAX_OPERATING_POINTS],
};

const OPERATING_POINT: Rav1dSequenceHeaderOperatingPoint = Rav1dSequenceHeaderOperatingPoint {
    major_level: 0,
    minor_level: 0,
    initial_display_delay: 0,
    idc: 0,
    tier: 0,
    decoder_model_param_present: 0,
    display_model_param_present: 0,
};

const OPERATING_PARAMETERS: Rav1dSequenceHeaderOperatingParameterInfo =
    Rav1dSequenceHeaderOperatingParameterInfo {
        decoder_buffer_delay: 0,
        encoder_buffer_delay: 0,
        low_delay_mode: 0,
    };
