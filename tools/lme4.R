# usage: Rscript tools/lme4.R EXAMPLES
# Data sets of lme4 and of the folder EXAMPLES, as one JSON object: for each set its description for tools/jobs (blocks and Z' as lme4 makes them), then for
# each theta what docs/MODEL.md says that a fit here gives, and lme4's own fits of the set.
#   binomial, Poisson   theta is lme4's; beta, se, b and the Laplace deviance profiled over beta (nAGQ = 0), less the saturated model's
#   Gaussian            phi is S/W, by lme4's residuals at its theta (REML = FALSE); theta here is lme4's times sqrt(phi), se is by phi in place of sigma^2, beta
#                       and b are lme4's; the deviance is -2 log of the normal density of y with the covariance phi/weights + ZΛΛ'Z', made without lme4, and
#                       the constant of the weights; beside it are lmer's own sigma^2 and -2 log L
#   Gamma               phi is the deviance over W, by lme4's means at its theta; theta here is lme4's times sqrt(phi), se is by phi, beta and b are lme4's; the
#                       deviance is R's AIC at this phi, less 2, with lme4's log determinant and its u'u over phi; beside it is lme4's own Laplace deviance
# Then what R's Gamma() and dgamma say of single responses, binomial("probit") of single predictors and means, and where binomial() starts: every number of the last by
# its 16 hexadecimal digits.
suppressPackageStartupMessages(library(lme4))

number <- function(x) sprintf("%.17g", x)
numbers <- function(x) paste0("[", paste(number(x), collapse = ", "), "]")
rows <- function(m) paste0("[", paste(apply(m, 1, numbers), collapse = ", "), "]")
object <- function(...) { of <- c(...); paste0("{", paste(sprintf('"%s": %s', names(of), of), collapse = ", "), "}") }
text <- function(x) sprintf('"%s"', x)
listed <- function(x) paste0("[", paste(x, collapse = ",\n"), "]")

errors <- function(m) numbers(sqrt(diag(as.matrix(vcov(m)))))
logged <- function(m) number(-2 * as.numeric(logLik(m)))

# Z' row by row, each entry [response, value]; blocks as lme4 orders them: most groups first.
sparse <- function(Zt) {
    of <- split(seq_along(Zt@x), factor(Zt@i, seq_len(nrow(Zt)) - 1))
    column <- rep(seq_len(ncol(Zt)) - 1, diff(Zt@p))
    listed(sapply(of, function(at) paste0("[", paste(sprintf("[%d, %.17g]", column[at], Zt@x[at]), collapse = ", "), "]")))
}
blocks <- function(terms) {
    listed(mapply(function(effects, group) object(m = nlevels(group), k = length(effects)), terms$cnms, terms$flist[attr(terms$flist, "assign")]))
}

# A table of examples/: the lines behind the head.
example <- function(name) {
    lines <- grep("^#|:", readLines(file.path(folder, paste0(name, ".txt"))), value = TRUE, invert = TRUE)
    read.table(text = lines, header = TRUE, stringsAsFactors = TRUE)
}

described <- function(parts, family, link, y, weights) {
    shift <- model.offset(parts$fr)
    object(family = text(family), link = text(link), blocks = blocks(parts$reTrms), y = numbers(y), weights = if (is.null(weights)) "null" else numbers(weights),
           offset = if (is.null(shift)) "null" else numbers(shift), x = rows(parts$X), zt = sparse(parts$reTrms$Zt))
}

# A binomial or Poisson set.
counted <- function(name, formula, data, family, thetas, own = TRUE) {
    control <- glmerControl(tolPwrss = 1e-12)
    parts <- glFormula(formula, data, family, control = control)
    laplace <- do.call(mkGlmerDevfun, c(parts, list(nAGQ = 0L, control = control)))
    eleven <- if (length(parts$reTrms$cnms) == 1) glmer(formula, data, family, nAGQ = 11, devFunOnly = TRUE, control = control)
    resp <- environment(laplace)$resp
    size <- if (family$family == "binomial") resp$weights
    saturated <- -2 * sum(if (is.null(size)) dpois(resp$y, resp$y, log = TRUE) else dbinom(round(resp$y * size), size, resp$y, log = TRUE))
    at <- function(theta) {
        deviance <- laplace(theta)
        pp <- environment(laplace)$pp
        beta <- pp$beta(1)
        object(theta = numbers(theta), relative = numbers(theta), deviance = number(deviance - saturated), phi = "1", beta = numbers(beta),
               se = numbers(sqrt(diag(pp$unsc()))), b = numbers(pp$b(1)), eleven = if (is.null(eleven)) "null" else number(eleven(c(theta, beta))))
    }
    answers <- listed(sapply(thetas, at))
    fit <- function(n) {
        m <- glmer(formula, data, family, nAGQ = n, control = control)
        object(by = text(paste("lme4, nAGQ =", n)), theta = numbers(getME(m, "theta")), beta = numbers(fixef(m)), se = errors(m), logged = logged(m))
    }
    object(name = text(name), about = described(parts, family$family, family$link, resp$y, size), saturated = number(saturated), answers = answers,
           own = if (own) listed(sapply(c(0, 1), fit)) else "[]")
}

# -2 log of the density of y: Λ of the absolute theta, sigma^2 = phi.
density <- function(parts, y, weights, mean, Lambdat, phi) {
    Z <- t(as.matrix(parts$reTrms$Zt))
    V <- diag(phi / weights) + tcrossprod(Z %*% t(as.matrix(Lambdat)))
    R <- chol(V)
    length(y) * log(2 * pi) + 2 * sum(log(diag(R))) + sum(backsolve(R, y - mean, transpose = TRUE)^2)
}

# A Gaussian set with the identity link; thetas are lme4's, relative to sigma. S is the weighted sum of squared residuals, W the sum of the weights.
measured <- function(name, formula, data, thetas, weighted = rep(1, nrow(data)), own = all(weighted == 1)) {
    data$weighted <- weighted
    parts <- lFormula(formula, data, REML = FALSE, weights = weighted)
    profiled <- do.call(mkLmerDevfun, parts)
    y <- model.response(parts$fr)
    n <- length(y)
    W <- sum(weighted)
    phi_of <- function(residuals) sum(weighted * residuals^2) / W
    at <- function(theta) {
        profile <- profiled(theta)
        pp <- environment(profiled)$pp
        phi <- phi_of(y - environment(profiled)$resp$mu)
        plain <- density(parts, y, weighted, drop(parts$X %*% pp$beta(1)), pp$Lambdat * sqrt(phi), phi)
        object(theta = numbers(theta * sqrt(phi)), relative = numbers(theta), deviance = number(plain + n * log(W / n) + n - W), phi = number(phi),
               beta = numbers(pp$beta(1)), se = numbers(sqrt(phi * diag(pp$unsc()))), b = numbers(pp$b(1)),
               sigma2 = number((environment(profiled)$resp$wrss() + pp$sqrL(1)) / n), logged = number(profile))
    }
    answers <- listed(sapply(thetas, at))
    fit <- function() {
        m <- lmer(formula, data, REML = FALSE, weights = weighted)
        object(theta = numbers(getME(m, "theta")), sigma2 = number(sigma(m)^2), beta = numbers(fixef(m)), se = errors(m), logged = logged(m),
               phi = number(phi_of(y - fitted(m))), b = numbers(getME(m, "b")@x))
    }
    object(name = text(name), about = described(parts, "gaussian", "identity", y, if (any(weighted != 1)) weighted), answers = answers,
           own = if (own) listed(fit()) else "[]")
}

# A Gaussian set with another link. glmer's Laplace deviance is another one here, so it is left out. 1e-5 is allowed: the stop test here is passed when PWRSS stands
# still to 1e-8, and u may still move by more.
linked <- function(name, formula, data, family, thetas) {
    control <- glmerControl(tolPwrss = 1e-12)
    parts <- glFormula(formula, data, family, control = control)
    laplace <- do.call(mkGlmerDevfun, c(parts, list(nAGQ = 0L, control = control)))
    resp <- environment(laplace)$resp
    at <- function(theta) {
        laplace(theta)
        pp <- environment(laplace)$pp
        phi <- mean((resp$y - resp$mu)^2)
        object(theta = numbers(theta * sqrt(phi)), relative = numbers(theta), phi = number(phi), beta = numbers(pp$beta(1)),
               se = numbers(sqrt(phi * diag(pp$unsc()))), b = numbers(pp$b(1)))
    }
    object(name = text(name), about = described(parts, "gaussian", family$link, resp$y, NULL), answers = listed(sapply(thetas, at)), own = "[]", allowed = "1e-5")
}

# A Gamma set. W is the sum of the weights. 1e-5 is allowed, as above.
skewed <- function(name, formula, data, family, thetas, weighted = rep(1, nrow(data)), own = FALSE) {
    data$weighted <- weighted
    control <- glmerControl(tolPwrss = 1e-12)
    parts <- glFormula(formula, data, family, weights = weighted, control = control)
    laplace <- do.call(mkGlmerDevfun, c(parts, list(nAGQ = 0L, control = control)))
    resp <- environment(laplace)$resp
    at <- function(theta) {
        glmers <- laplace(theta)
        pp <- environment(laplace)$pp
        phi <- sum(family$dev.resids(resp$y, resp$mu, weighted)) / sum(weighted)
        aic <- family$aic(resp$y, rep(1, length(resp$y)), resp$mu, weighted, phi * sum(weighted))
        object(theta = numbers(theta * sqrt(phi)), relative = numbers(theta), deviance = number(aic - 2 + pp$ldL2() + pp$sqrL(1) / phi), phi = number(phi),
               beta = numbers(pp$beta(1)), se = numbers(sqrt(phi * diag(pp$unsc()))), b = numbers(pp$b(1)), glmers = number(glmers))
    }
    answers <- listed(sapply(thetas, at))
    fit <- function() {
        m <- glmer(formula, data, family, nAGQ = 0, control = control)
        object(theta = numbers(getME(m, "theta")), beta = numbers(fixef(m)), b = numbers(getME(m, "b")@x), glmers = logged(m))
    }
    object(name = text(name), about = described(parts, "gamma", family$link, resp$y, if (any(weighted != 1)) weighted), answers = answers, own = "[]",
           searched = if (own) fit() else "null", allowed = "1e-5")
}

# What R says of responses y with means mu and weights: deviances, the AIC, and the logarithm of the density for a shape. For a large shape more is allowed: the
# Rust's terms cancel there, R's don't.
elements <- function(y, mu, weights, shape, allowed = 1e-13) {
    deviances <- Gamma()$dev.resids(y, mu, weights)
    object(y = numbers(y), mu = numbers(mu), weights = numbers(weights), shape = number(shape), allowed = number(allowed), deviances = numbers(deviances),
           aic = number(Gamma()$aic(y, rep(1, length(y)), mu, weights, sum(deviances))), density = numbers(dgamma(y, shape, scale = mu / shape, log = TRUE)))
}

# What R's probit link says of predictors, and of means.
linkage <- function(name, eta, mu) {
    link <- binomial("probit")
    object(name = text(name), eta = numbers(eta), mu = numbers(mu), inv = numbers(link$linkinv(eta)), slope = numbers(link$mu.eta(eta)), fun = numbers(link$linkfun(mu)))
}

# The starting means of binomial(), by its own expression; the patterns of weights, responses and means.
patterns <- function(x) listed(sapply(x, function(one) text(toupper(paste(writeBin(one, raw(), endian = "big"), collapse = "")))))
starting <- function(name, y, weights) {
    responses <- y
    nobs <- length(y)
    suppressWarnings(eval(binomial()$initialize))
    object(name = text(name), weights = patterns(weights), y = patterns(responses), means = patterns(mustart))
}

folder <- commandArgs(TRUE)
sets <- c(
    counted("cbpp", cbind(incidence, size - incidence) ~ period + (1 | herd), cbpp, binomial(), c(0, 0.5, 0.64, 1, 5, 30)),
    counted("grouseticks", TICKS ~ cHEIGHT + (1 | LOCATION), droplevels(subset(grouseticks, YEAR == "95")), poisson(), c(0, 0.5, 1, 1.5)),
    counted("cbpp, cloglog", cbind(incidence, size - incidence) ~ period + (1 | herd), cbpp, binomial("cloglog"), c(0.5, 1), own = FALSE),
    counted("cbpp, probit", cbind(incidence, size - incidence) ~ period + (1 | herd), cbpp, binomial("probit"), c(0.5, 1), own = FALSE),
    counted("grouseticks, sqrt", TICKS ~ cHEIGHT + (1 | LOCATION), droplevels(subset(grouseticks, YEAR == "95")), poisson("sqrt"), c(0.5, 1), own = FALSE),
    measured("Dyestuff", Yield ~ 1 + (1 | Batch), Dyestuff, c(0, 0.5, 0.75, 2)),
    measured("sleepstudy, intercepts", Reaction ~ Days + (1 | Subject), sleepstudy, c(0, 0.5, 1.2, 4)),
    measured("sleepstudy, 16 subjects, slopes", Reaction ~ Days + (Days | Subject), droplevels(sleepstudy[1:160, ]),
             list(c(0.9, 0.02, 0.2), c(1, -0.5, 0.5))),
    measured("sleepstudy, 10 subjects, parabolas", Reaction ~ Days + (Days + I(Days^2) | Subject), droplevels(sleepstudy[1:100, ]),
             list(c(0.9, 0.1, -0.02, 0.3, 0.01, 0.05)), own = FALSE),
    linked("sleepstudy, log link", Reaction ~ Days + (1 | Subject), sleepstudy, gaussian("log"), c(0.002, 0.01)),
    linked("sleepstudy, inverse link", Reaction ~ Days + (1 | Subject), sleepstudy, gaussian("inverse"), c(0.00001, 0.00003)),
    measured("Dyestuff, weights of mean 1", Yield ~ 1 + (1 | Batch), Dyestuff, c(0.5, 2), rep(c(0.5, 1, 1.5), 10)),
    measured("Dyestuff, weights of mean 2", Yield ~ 1 + (1 | Batch), Dyestuff, c(0.5, 2), rep(c(1, 2, 3), 10)),
    measured("Penicillin", diameter ~ 1 + (1 | plate) + (1 | sample), Penicillin, list(c(1.5, 3.2), c(3, 6))),
    counted("examples/wafers", cbind(weak, cells - weak) ~ radius + (1 | wafer), example("wafers"), binomial(), c(0.25, 0.55, 1)),
    counted("examples/cards", weak ~ I(ring == "rim") + (1 | wafer) + (1 | card), example("cards"), binomial(), list(c(0.5, 0.5)), own = FALSE),
    counted("examples/defects", defects ~ reflow + offset(log(area)) + (1 | lot), example("defects"), poisson(), c(0.25, 0.45, 1)),
    counted("examples/defects, identity", defects ~ 1 + (1 | lot), example("defects"), poisson("identity"), c(0.5, 2), own = FALSE),
    counted("examples/flashes", cbind(seen, shown - seen) ~ level + (1 | detector), example("flashes"), binomial("probit"), c(0.25, 0.7, 1.5)),
    measured("examples/dark", current ~ warm + (warm | wafer), example("dark"), list(c(2, -0.15, 0.7), c(3, 0.5, 1))),
    skewed("examples/cells", current ~ warm + (1 | wafer), example("cells"), Gamma("log"), c(0.2, 0.6328, 1.5), own = TRUE),
    skewed("examples/cells, weights", current ~ warm + (1 | wafer), example("cells"), Gamma("log"), c(0.3, 0.8), rep(c(0.5, 1, 1.5, 2), 12)),
    skewed("examples/cells, warm from 1, inverse", current ~ warm + (1 | wafer), subset(example("cells"), warm >= 1), Gamma("inverse"), c(0.02, 0.05)),
    skewed("examples/cells, warm from 0, identity", current ~ warm + (1 | wafer), subset(example("cells"), warm >= 0), Gamma("identity"), c(0.5, 2)))
of_gamma <- c(elements(c(0.68, 1.57, 9.84, 2.53, 0.01), c(0.9, 1.4, 4.5, 3, 0.5), rep(1, 5), 4), elements(c(0.2, 30, 1, 7), c(0.3, 8, 1.25, 70), c(0.5, 2, 1, 0.25), 0.375),
              elements(c(1, 1.001, 0.998), c(1.0005, 1, 0.999), c(1, 3, 2), 1e4, 1e-9))
of_probit <- c(linkage("the middle", c(-1.5, -0.75, -0.1, 0, 0.25, 1.1, 1.7), c(0.26, 0.4, 0.5, 0.6, 0.74)),
               linkage("the lower tail", c(-8, -5.5, -4.04, -2.2, -1.8), c(1e-15, 1e-9, 0.001, 0.02, 0.13)),
               linkage("the upper tail", c(1.8, 2.2, 4.04, 5.5, 8), c(0.87, 0.98, 0.999, 1 - 1e-9)),
               linkage("past the ends", c(-40, -9, 9, 40), c(0.25, 0.75)))
shares <- c(0, 1, 0.3, 0.7, 0.1)
trials <- rep(1:16, 2:17)
wafers <- example("wafers")
starts <- c(starting("weights 1", shares, rep(1, 5)), starting("numbers of trials", shares, c(3, 80, 10, 1e16, 0.1)), starting("the least and the most", shares, c(0, -0.0, 1e-300, 1.5e308, 7)),
            starting("every count of 1 to 16 trials", sequence(2:17, 0) / trials, as.numeric(trials)), starting("examples/wafers", wafers$weak / wafers$cells, as.numeric(wafers$cells)))
cat(object(lme4 = text(packageVersion("lme4")), R = text(getRversion()), sets = listed(sets), gamma = listed(of_gamma), probit = listed(of_probit), starts = listed(starts)), "\n")
