"""The exported functions by name, each with the plain function that models it.

Arguments and replies are plain values, as README.md lists them, not the flat structs of C. `jc_version` and the echoes
are not here: a number, and functions that give back what they are handed.

Specification: #exported
"""

from . import geometry, journal, record, scoring

EXPORTED = {
    "jc_sqrt": geometry.call_root,
    "jc_sine": geometry.call_sine,
    "jc_cosine": geometry.call_cosine,
    "jc_pixel_to_sensor": geometry.pixel_to_sensor,
    "jc_sensor_to_pixel": geometry.sensor_to_pixel,
    "jc_distort_numbers": geometry.distort,
    "jc_distort_with_jacobian": geometry.distort_with_derivatives,
    "jc_undistort": geometry.undistort,
    "jc_determinant": geometry.determinant,
    "jc_tilt_projection_matrix": geometry.tilt_projection_matrix,
    "jc_inverse": geometry.inverse,
    "jc_apply_homography": geometry.apply_homography,
    "jc_apply_homography_inverse": geometry.apply_homography_inverse,
    "jc_untilt_points": geometry.untilt_points,
    "jc_ideal_points": geometry.ideal_points,
    "jc_observed_pixel_center": geometry.observed_centre,
    "jc_normalize_points_2d": geometry.normalise,
    "jc_points_are_collinear": geometry.points_are_collinear,
    "jc_design_rows": geometry.design_rows,
    "jc_conic_to_camera": geometry.conic_to_camera,
    "jc_known_plate": geometry.known_plate,
    "jc_damp_seed_distortion": scoring.damp_distortion,
    "jc_distortion_complexity": scoring.distortion_penalty,
    "jc_tilt_complexity": scoring.tilt_penalty,
    "jc_principal_point_complexity": scoring.centre_penalty,
    "jc_count_errors": scoring.count_errors,
    "jc_mean_reproj_error": scoring.mean_reproj_error,
    "jc_start": record.start,
    "jc_next": record.next_seed,
    "jc_seed": record.flat_seed,
    "jc_answer": record.answer,
    "jc_result": record.result,
    "jc_progress": record.progress,
    "jc_stop": record.stop,
    "jc_last_line": record.last_line,
    "jc_counts": record.counts,
    "jc_write_line": journal.write_line,
    "jc_read_line": journal.read_line,
    "jc_write_report": journal.write_report,
    "jc_replay": journal.replay,
    "jc_resume": journal.resume,
    "jc_winner": scoring.winner,
}
