// QuantLib's tree engine on the ordinary bond: for each number of steps the milliseconds of one value and of one spread behind a price.
// Arguments: steps, calls of the value, calls of the spread (0: none). The best of seven timings, by the thread's own time.
#include <ql/quantlib.hpp>
#include <cstdio>
#include <cstdlib>
#include <ctime>

using namespace QuantLib;

static double milliseconds() {
    timespec t;
    clock_gettime(CLOCK_THREAD_CPUTIME_ID, &t);
    return t.tv_sec * 1e3 + t.tv_nsec / 1e6;
}

template <class Call> static double best(int calls, Call call) {
    double least = 1e300;
    for (int round = 0; round < 7; ++round) {
        const double start = milliseconds();
        for (int i = 0; i < calls; ++i)
            call();
        least = std::min(least, (milliseconds() - start) / calls);
    }
    return least;
}

int main(int, char** words) {
    const Size steps = std::atoi(words[1]);
    const Date settlement(17, November, 2025);
    Settings::instance().evaluationDate() = settlement;
    const DayCounter days = Actual365Fixed();
    const NullCalendar calendar;
    const Schedule schedule(settlement, settlement + 10 * Years, Period(Semiannual), calendar, Unadjusted, Unadjusted, DateGeneration::Backward, false);
    CallabilitySchedule calls;
    for (int year = 2; year < 10; ++year)
        calls.push_back(ext::make_shared<Callability>(Bond::Price(100.0, Bond::Price::Dirty), Callability::Call, settlement + year * Years));
    const Handle<YieldTermStructure> curve(ext::make_shared<FlatForward>(settlement, 0.04, days, Continuous));
    CallableFixedRateBond bond(0, 100.0, schedule, std::vector<Rate>(1, 0.05), days, Unadjusted, 100.0, settlement, calls);
    bond.setPricingEngine(ext::make_shared<TreeCallableFixedRateBondEngine>(ext::make_shared<HullWhite>(curve, 0.05, 0.01), steps, curve));
    const double value = bond.NPV();
    const double valued = best(std::atoi(words[2]), [&] { bond.recalculate(); });
    const int solves = std::atoi(words[3]);
    const double solved = solves == 0 ? 0.0 : best(solves, [&] { bond.OAS(bond.cleanPrice() - 1.0, curve, days, Continuous, NoFrequency, settlement, 1e-12); });
    std::printf("%.17g %.17g %.17g\n", value, valued, solved);
}
