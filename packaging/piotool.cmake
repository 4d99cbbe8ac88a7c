# piotool in a build of CMake: `find_package(piotool)` or `include(piotool.cmake)`, and then
#
#   piotool_check(TARGET firmware SOURCES blink.pio CONFIG blink.toml [STIMULUS blink.stim] [MHZ 125] [ADDED 2])
#
# makes a target `firmware_times`, which is built with everything. It takes the ELF of the target, and fails the build where
#
# - the set-up of the firmware isn't the kept one (`piotool-setup elf .. --compare`); the machines in ADDED aren't the firmware's,
# - `piotool-lint` has an error or a warning, which it says with file, line and column,
# - a span isn't proved or never opens, or none is declared,
# - a kept table CONFIG.SPAN.table doesn't prove its span any more, or isn't the one that piotool writes; one that isn't there is made,
# - the stimulus has a fault, or a kept trace CONFIG.vcd beside it isn't what piotool writes.
#
# Where CONFIG.pio stands beside CONFIG.toml it is the source that is checked, else the one of SOURCES.

if(CMAKE_SCRIPT_MODE_FILE STREQUAL CMAKE_CURRENT_LIST_FILE)
    string(REPLACE "|" ";" sources "${SOURCES}")
    string(REPLACE "|" ";" added "${ADDED}")
    string(REGEX REPLACE "\\.toml$" "" base "${CONFIG}")

    # piotool_call(OUT COMMAND..): a command that has to end with 0; what it writes is in OUT.
    function(piotool_call out)
        execute_process(COMMAND ${ARGN} OUTPUT_VARIABLE told ERROR_VARIABLE wrong RESULT_VARIABLE status)
        if(NOT status EQUAL 0)
            list(JOIN ARGN " " command)
            message("${told}${wrong}")
            message(FATAL_ERROR "it ended with ${status}: ${command}")
        endif()
        set(${out} "${told}" PARENT_SCOPE)
    endfunction()

    set(words elf ${ELF} --compare ${CONFIG})
    foreach(source IN LISTS sources)
        list(APPEND words --source ${source})
    endforeach()
    foreach(machine IN LISTS added)
        list(APPEND words --added ${machine})
    endforeach()
    if(MHZ)
        list(APPEND words --mhz ${MHZ})
    endif()
    piotool_call(told ${PIOTOOL_SETUP} ${words})

    list(LENGTH sources count)
    if(EXISTS ${base}.pio)
        set(source ${base}.pio)
    elseif(count EQUAL 1)
        set(source ${sources})
    else()
        message(FATAL_ERROR "of several sources a call of piotool takes one: keep ${base}.pio, as `piotool-setup elf` writes it")
    endif()
    set(clocks 0)
    if(STIMULUS AND EXISTS ${base}.vcd)
        file(READ ${base}.vcd before)
        string(REGEX MATCH "#([0-9]+)\n$" last "${before}")
        set(clocks ${CMAKE_MATCH_1})
    endif()
    set(words ${source} --config ${CONFIG} --werror)
    if(STIMULUS)
        list(APPEND words --stimulus ${STIMULUS} --clocks ${clocks})
    endif()
    if(MHZ)
        list(APPEND words --mhz ${MHZ})
    endif()
    # Its lines go through as they are, so that an editor finds their places.
    execute_process(COMMAND ${PIOTOOL_LINT} ${words} RESULT_VARIABLE status)
    if(NOT status EQUAL 0)
        message(FATAL_ERROR "piotool-lint ended with ${status}")
    endif()

    set(files --source ${source} --config ${CONFIG})
    piotool_call(verdicts ${PIOTOOL} check ${files})
    message("${verdicts}")
    if(verdicts STREQUAL "")
        message(FATAL_ERROR "no span is declared in ${CONFIG}")
    elseif(verdicts MATCHES "opens no|closes no")
        message(FATAL_ERROR "a span never opens: look at its pins and edges")
    endif()

    string(REGEX MATCHALL "span [A-Za-z0-9_-]+ proved" spans "${verdicts}")
    foreach(span IN LISTS spans)
        string(REGEX REPLACE "span (.*) proved" "\\1" span "${span}")
        set(kept ${base}.${span}.table)
        piotool_call(table ${PIOTOOL} table ${files} --span ${span})
        if(NOT EXISTS ${kept})
            message("${kept} is made")
            file(WRITE ${kept} "${table}")
        endif()
        piotool_call(told ${PIOTOOL} recheck ${files} --span ${span} --table ${kept})
        file(READ ${kept} before)
        if(NOT table STREQUAL before)
            message(FATAL_ERROR "the table of ${span} isn't the kept one: look at what changed, and keep the new one")
        endif()
    endforeach()

    if(STIMULUS)
        piotool_call(trace ${PIOTOOL} run ${files} --stimulus ${STIMULUS} --clocks ${clocks})
        if(EXISTS ${base}.vcd)
            file(READ ${base}.vcd before)
        endif()
        if(EXISTS ${base}.vcd AND NOT trace STREQUAL before)
            message(FATAL_ERROR "the trace isn't the kept one, ${base}.vcd")
        endif()
    endif()
    file(WRITE ${CHECKED} "${verdicts}")
    return()
endif()

find_program(PIOTOOL piotool)
find_program(PIOTOOL_SETUP piotool-setup)
find_program(PIOTOOL_LINT piotool-lint)
set(PIOTOOL_MODULE ${CMAKE_CURRENT_LIST_FILE})

function(piotool_check)
    cmake_parse_arguments(it "" "TARGET;CONFIG;STIMULUS;MHZ" "SOURCES;ADDED" ${ARGN})
    if(NOT it_TARGET OR NOT it_CONFIG OR NOT it_SOURCES)
        message(FATAL_ERROR "piotool_check wants TARGET, SOURCES and CONFIG")
    elseif(NOT PIOTOOL OR NOT PIOTOOL_SETUP OR NOT PIOTOOL_LINT)
        message(FATAL_ERROR "piotool, piotool-setup and piotool-lint have to be on the path, or named by -DPIOTOOL=.. and the like")
    endif()
    set(files)
    foreach(file IN LISTS it_SOURCES it_CONFIG it_STIMULUS)
        get_filename_component(file ${file} ABSOLUTE)
        list(APPEND files ${file})
    endforeach()
    foreach(name CONFIG STIMULUS)
        if(it_${name})
            get_filename_component(it_${name} ${it_${name}} ABSOLUTE)
        endif()
    endforeach()
    set(sources)
    foreach(file IN LISTS it_SOURCES)
        get_filename_component(file ${file} ABSOLUTE)
        list(APPEND sources ${file})
    endforeach()
    list(JOIN sources "|" sources)
    list(JOIN it_ADDED "|" added)
    string(REGEX REPLACE "\\.toml$" "" base ${it_CONFIG})
    file(GLOB kept CONFIGURE_DEPENDS ${base}.*.table ${base}.vcd ${base}.pio)
    set(checked ${CMAKE_CURRENT_BINARY_DIR}/${it_TARGET}.checked)
    add_custom_command(OUTPUT ${checked}
        COMMAND ${CMAKE_COMMAND} -DPIOTOOL=${PIOTOOL} -DPIOTOOL_SETUP=${PIOTOOL_SETUP} -DPIOTOOL_LINT=${PIOTOOL_LINT}
            -DELF=$<TARGET_FILE:${it_TARGET}>
            "-DSOURCES=${sources}" -DCONFIG=${it_CONFIG} -DSTIMULUS=${it_STIMULUS} -DMHZ=${it_MHZ} "-DADDED=${added}"
            -DCHECKED=${checked} -P ${PIOTOOL_MODULE}
        DEPENDS ${it_TARGET} $<TARGET_FILE:${it_TARGET}> ${files} ${kept}
        VERBATIM)
    add_custom_target(${it_TARGET}_times ALL DEPENDS ${checked})
endfunction()
