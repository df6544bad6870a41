# usage: Rscript tools/bench.R TABLE THETA..
# lme4's own deviance function at theta, beta profiled (mkGlmerDevfun, nAGQ = 0), for a binomial table with the logit link: columns y, w (trials), x1 .., g1 ...
# Timed from outside (tools/bench lme4): first a line of lme4's version, R's and the file of the BLAS; then a line of the deviance, less the saturated model's, and beta by a stricter stop
# test (tolPwrss = 1e-12), to be compared; then for each line of standard input, a number, so many calls with lme4's own settings, and such a line.
suppressPackageStartupMessages(library(lme4))
words <- commandArgs(TRUE)
data <- read.table(words[1], header = TRUE)
theta <- as.numeric(words[-1])
of <- function(letter) grep(paste0("^", letter), names(data), value = TRUE)
data[of("g")] <- lapply(data[of("g")], factor)
formula <- as.formula(paste("y ~ 0 +", paste(c(of("x"), sprintf("(1 | %s)", of("g"))), collapse = " + ")))
saturated <- -2 * sum(dbinom(round(data$y * data$w), data$w, data$y, log = TRUE))
by <- function(control) do.call(mkGlmerDevfun, c(glFormula(formula, data, binomial(), weights = w, control = control), list(nAGQ = 0L, control = control)))
put <- function(laplace, deviance) cat(sprintf("%.17g", c(deviance - saturated, environment(laplace)$pp$beta(1))), "\n")
cat(as.character(packageVersion("lme4")), as.character(getRversion()), basename(sessionInfo()$BLAS), "\n")
strict <- by(glmerControl(tolPwrss = 1e-12))
put(strict, strict(theta))
laplace <- by(glmerControl())
lines <- file("stdin", "r")
while (length(calls <- readLines(lines, 1)) > 0) {
    for (i in seq_len(as.integer(calls))) deviance <- laplace(theta)
    put(laplace, deviance)
}
