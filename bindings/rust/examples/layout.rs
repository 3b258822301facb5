//! The sizes and places that the crate has of the header, and the kinds of a log's faults, for a test that compares
//! them.
use std::mem::{offset_of, size_of};
use vinjakwe::c::*;

macro_rules! tell {
    ($name:ident, $($field:ident),*) => {
        println!("{} {}", stringify!($name), size_of::<$name>());
        $(println!("{}.{} {}", stringify!($name), stringify!($field).trim_start_matches("r#"),
            offset_of!($name, $field));)*
    };
}

fn main() {
    tell!(tpm_refusal, code, at);
    tell!(tpm_part, at, len);
    tell!(tpm_command_session, handle, attributes, nonce, hmac);
    tell!(tpm_command_areas, code, size, handle_count, handles, session_count, sessions, parameters);
    tell!(tpm_response_session, attributes, nonce, hmac);
    tell!(tpm_response_areas, code, handle_count, handle, parameters, session_count, sessions);
    tell!(tpm_log_place, at, late);
    tell!(tpm_log_digest, hash, hashed, digest);
    tell!(tpm_log_event, at, pcr, r#type, digest_count, digests, data);
    tell!(tpm_variable, guid, name, value);
    tell!(tpm_image, address, size, link_address, path);
    tell!(tpm_path_node, r#type, subtype, value);
    tell!(tpm_firmware, base, size, name);
    tell!(tpm_tables, name, count, entries);
    tell!(tpm_tag, id, value);
    tell!(tpm_partitions, disk, count, entry_size, entries);
    tell!(tpm_measurement, hash, device_type, block, context);
    tell!(tpm_evidence, auth_state, device_type, sub_header_type, uid, path, sub_header, context);
    tell!(tpm_content, variable, holds, text, number, image, firmware, tables, tag, partitions, measurement, evidence);
    tell!(tpm_partition, r#type, guid, first, last, attributes, name);
    tell!(tpm_table, guid, address);
    tell!(tpm_signature_list, r#type, header, count, entry_size, entries);
    tell!(tpm_owned, owner, value);
    tell!(tpm_load_option, attributes, description, path, value);
    tell!(tpm_secure_boot, dma_protection_disabled, pk, kek, db, dbx);
    tell!(tpm_attest, signer, nonce, clock, reset_count, restart_count, safe, firmware_version, selections, digest);
    tell!(tpm_signature, scheme, hash, sig, r, s);
    tell!(tpm_attest_fault, code, at, hash, pcr);
    tell!(tpm_allowed, pcr, hash, digest);
    tell!(tpm_policy, hash, digest);
    tell!(tpm_counter, index, hash, attributes, value, policy_len, policy, has_auth);
    for (number, name) in vinjakwe::LOG_FAULTS.iter().enumerate() {
        println!("TPM_LOG_{} {number}", name.to_uppercase());
    }
}
