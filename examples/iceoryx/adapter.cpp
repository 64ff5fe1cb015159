// Answers the lines of docs/FORMATS.md by iceoryx 2.0.3, for `./iox --against` and `compare`: a line in, its reply out.
//
// "_" in a reply is what iceoryx doesn't tell. A line that asks for what it lacks is answered "unsupported WHY", and changes nothing.
// ":reset" ends all that was made. RouDi runs within this process, so one process answers many scripts.
#include "iceoryx_hoofs/error_handling/error_handling.hpp"
#include "iceoryx_hoofs/log/logmanager.hpp"
#include "iceoryx_posh/internal/roudi/roudi.hpp"
#include "iceoryx_posh/popo/untyped_publisher.hpp"
#include "iceoryx_posh/popo/untyped_subscriber.hpp"
#include "iceoryx_posh/roudi/iceoryx_roudi_components.hpp"
#include "iceoryx_posh/runtime/posh_runtime_single_process.hpp"

#include <algorithm>
#include <atomic>
#include <chrono>
#include <cstdio>
#include <fcntl.h>
#include <iostream>
#include <map>
#include <memory>
#include <sstream>
#include <string>
#include <sys/syscall.h>
#include <thread>
#include <unistd.h>
#include <vector>

namespace {

using Words = std::vector<std::string>;
using Options = std::map<std::string, std::string>;

struct Skip {};
struct Refused {
    std::string error;
};
struct Unsupported {
    std::string why;
};

// RouDi connects ports every 100 ms; here it does so when it is told to.
class RouDi : public iox::roudi::RouDi {
  public:
    using iox::roudi::RouDi::RouDi;
    void connectPorts() { m_prcMgr->run(); }
};

// How often the publish of this thread has yielded; no other thread has such a count.
thread_local std::atomic<uint64_t>* yieldsOfPublish{nullptr};

// A publish in a thread of its own: iceoryx waits within the call where a queue is full.
class Publishing {
  public:
    template <typename Publish>
    explicit Publishing(Publish publish) : m_thread([this, publish] {
        yieldsOfPublish = &m_yields;
        publish();
        m_isDone.store(true);
    }) {}

    // Whether it waits: it yields once between two tries, so behind two more yields it has tried again in vain.
    bool waits() {
        const uint64_t until = m_yields.load() + 2;
        while (!m_isDone.load() && m_yields.load() < until) {
            std::this_thread::sleep_for(PAUSE);
        }
        return !m_isDone.load();
    }

    void join() { m_thread.join(); }

    static constexpr std::chrono::microseconds PAUSE{20};

  private:
    std::atomic<bool> m_isDone{false};
    std::atomic<uint64_t> m_yields{0};
    std::thread m_thread;
};

// What a service is: iceoryx has no such object, so its settings are kept here and given to each port.
struct Service {
    std::string name;
    uint64_t buffer{2};
    uint64_t history{0};
    bool isOverflowing{true};
    bool isNumbered{false};
    int factories{0};
    int publishers{0};
};

struct Factory {
    std::shared_ptr<Service> service;
};

struct Publisher {
    uint64_t factory{0};
    std::shared_ptr<Service> service;
    std::unique_ptr<iox::popo::UntypedPublisher> port;
    uint64_t mostLoans{2};
    uint64_t mostValues{1};
    uint64_t loans{0};
    std::unique_ptr<Publishing> publishing;
};

struct Subscriber {
    uint64_t factory{0};
    std::shared_ptr<Service> service;
    std::unique_ptr<iox::popo::UntypedSubscriber> port;
    uint64_t samples{0};
};

struct Loan {
    uint64_t publisher{0};
    uint64_t* values{nullptr};
    uint64_t length{0};
    bool isWritten{false};
};

struct Sample {
    uint64_t subscriber{0};
    const uint64_t* values{nullptr};
    bool isNumbered{false};
};

uint64_t numberIn(const std::string& word) {
    if (word.empty() || word.find_first_not_of("0123456789") != std::string::npos) {
        throw Unsupported{"word " + word};
    }
    return std::stoull(word);
}

// What was made of one kind, by its numbers from 1 on. A number that is spent is never given again.
template <typename Value>
class Made {
  public:
    explicit Made(char letter) : m_letter(letter) {}

    std::string add(Value value) {
        m_values.push_back(std::make_unique<Value>(std::move(value)));
        return std::string("ok ") + m_letter + std::to_string(m_values.size());
    }

    uint64_t number(const std::string& word) const {
        if (word.empty() || word[0] != m_letter) {
            throw Unsupported{"word " + word};
        }
        return numberIn(word.substr(1));
    }

    Value& at(uint64_t number) {
        if (number < 1 || number > m_values.size() || !m_values[number - 1]) {
            throw Skip{};
        }
        return *m_values[number - 1];
    }

    Value& at(const std::string& word) { return at(number(word)); }
    void spend(const std::string& word) { m_values[number(word) - 1].reset(); }
    void clear() { m_values.clear(); }

    template <typename Function>
    void forEach(Function function) {
        for (auto& it : m_values) {
            if (it) {
                function(*it);
            }
        }
    }

  private:
    char m_letter;
    std::vector<std::unique_ptr<Value>> m_values;
};

Options optionsIn(const Words& words, size_t first, const std::string& known) {
    Options found;
    for (size_t at = first; at < words.size(); ++at) {
        const auto cut = words[at].find('=');
        if (cut == std::string::npos || known.find(" " + words[at].substr(0, cut) + " ") == std::string::npos) {
            throw Unsupported{words[at]};
        }
        found[words[at].substr(0, cut)] = words[at].substr(cut + 1);
    }
    return found;
}

uint64_t optionOr(const Options& options, const std::string& key, uint64_t value) {
    const auto found = options.find(key);
    return found == options.end() ? value : numberIn(found->second);
}

std::string withValues(std::string reply, const uint64_t* values) {
    const auto length = iox::mepoo::ChunkHeader::fromUserPayload(values)->userPayloadSize() / sizeof(uint64_t);
    for (uint64_t at = 0; at < length; ++at) {
        reply += " " + std::to_string(values[at]);
    }
    return reply;
}

} // namespace

// Called by iceoryx in the place of the C library's. A publish that waits is counted, and sleeps rather than spins.
extern "C" int sched_yield() noexcept {
    if (yieldsOfPublish == nullptr) {
        return static_cast<int>(syscall(SYS_sched_yield));
    }
    yieldsOfPublish->fetch_add(1);
    std::this_thread::sleep_for(Publishing::PAUSE);
    return 0;
}

namespace {

class Script {
  public:
    explicit Script(RouDi& roudi) : m_roudi(roudi) {}

    std::string answer(const std::string& line) {
        Words words;
        std::istringstream in(line);
        for (std::string word; in >> word;) {
            words.push_back(word);
        }
        const auto command = COMMANDS.find(words.empty() ? "" : words[0]);
        if (command == COMMANDS.end()) {
            throw Unsupported{words.empty() ? "an empty line" : words[0]};
        }
        return (this->*command->second)(words);
    }

    void end() {
        m_samples.clear();
        m_subscribers.clear();
        m_roudi.connectPorts();
        // Without a queue that is full each publish ends.
        m_publishers.forEach([](auto& it) {
            if (it.publishing) {
                it.publishing->join();
            }
        });
        m_loans.forEach([this](auto& it) { m_publishers.at(it.publisher).port->release(it.values); });
        m_loans.clear();
        m_publishers.clear();
        m_factories.clear();
        m_services.clear();
        m_roudi.connectPorts();
        m_nodes = 0;
        ++m_scripts;
    }

  private:
    using Command = std::string (Script::*)(const Words&);
    static const std::map<std::string, Command> COMMANDS;

    // ---- agreement

    std::string node(const Words&) { return "ok n" + std::to_string(++m_nodes); }

    void checkNode(const Words& words) {
        if (words.at(1)[0] != 'n' || numberIn(words[1].substr(1)) - 1 >= m_nodes) {
            throw Skip{};
        }
        if (words.at(2) != "ps") {
            throw Unsupported{words[2]};
        }
    }

    std::string addFactory(std::shared_ptr<Service> service) {
        ++service->factories;
        return m_factories.add(Factory{std::move(service)});
    }

    std::string create(const Words& words) {
        checkNode(words);
        const auto asked = optionsIn(words, 4, " buffer history borrowed overflow sequence publishers subscribers nodes ");
        if (m_services.count(words.at(3))) {
            throw Refused{"PublishSubscribeCreateError::AlreadyExists"};
        }
        auto service = std::make_shared<Service>();
        service->name = words[3];
        service->buffer = std::max<uint64_t>(1, optionOr(asked, "buffer", 2));
        service->history = optionOr(asked, "history", 0);
        service->isOverflowing = optionOr(asked, "overflow", 1) == 1;
        service->isNumbered = optionOr(asked, "sequence", 0) == 1;
        if (!service->isOverflowing && service->buffer < service->history) {
            throw Refused{"PublishSubscribeCreateError::SubscriberBufferMustBeLargerThanHistorySize"};
        }
        if (service->buffer > iox::MAX_SUBSCRIBER_QUEUE_CAPACITY || service->history > iox::MAX_PUBLISHER_HISTORY) {
            throw Unsupported{"sizes"};
        }
        m_services[words[3]] = service;
        return addFactory(service);
    }

    std::string open(const Words& words) {
        checkNode(words);
        if (words.size() > 4) {
            throw Unsupported{words[4]};
        }
        const auto found = m_services.find(words.at(3));
        if (found == m_services.end()) {
            throw Refused{"PublishSubscribeOpenError::DoesNotExist"};
        }
        return addFactory(found->second);
    }

    std::string close(const Words& words) {
        const auto number = m_factories.number(words.at(1));
        const auto service = m_factories.at(number).service;
        const auto refuseWhereUsed = [number](auto& it) {
            if (it.factory == number) {
                throw Refused{"CloseError::StillInUse"};
            }
        };
        m_publishers.forEach(refuseWhereUsed);
        m_subscribers.forEach(refuseWhereUsed);
        m_factories.spend(words[1]);
        if (--service->factories == 0) {
            m_services.erase(service->name);
        }
        return "ok";
    }

    // ---- ports

    iox::capro::ServiceDescription description(const Service& service) const {
        const auto text = [](const std::string& it) { return iox::capro::IdString_t(iox::cxx::TruncateToCapacity, it); };
        return {"script", text(std::to_string(m_scripts)), text(service.name)};
    }

    std::string publisher(const Words& words) {
        auto service = m_factories.at(words.at(1)).service;
        const auto asked = optionsIn(words, 2, " loans slice ");
        if (!service->isOverflowing && service->publishers > 0) {
            throw Unsupported{"two publishers that may wait: which one goes on first isn't determined"};
        }
        iox::popo::PublisherOptions options;
        options.historyCapacity = service->history;
        options.subscriberTooSlowPolicy = service->isOverflowing ? iox::popo::ConsumerTooSlowPolicy::DISCARD_OLDEST_DATA
                                                                 : iox::popo::ConsumerTooSlowPolicy::WAIT_FOR_CONSUMER;
        Publisher made;
        made.factory = m_factories.number(words[1]);
        made.service = service;
        made.mostLoans = optionOr(asked, "loans", 2);
        made.mostValues = optionOr(asked, "slice", 1);
        made.port = std::make_unique<iox::popo::UntypedPublisher>(description(*service), options);
        ++service->publishers;
        m_roudi.connectPorts();
        return m_publishers.add(std::move(made));
    }

    std::string subscriber(const Words& words) {
        auto service = m_factories.at(words.at(1)).service;
        const auto asked = optionsIn(words, 2, " buffer ");
        iox::popo::SubscriberOptions options;
        options.queueCapacity = std::max<uint64_t>(1, optionOr(asked, "buffer", service->buffer));
        if (options.queueCapacity > service->buffer) {
            throw Refused{"SubscriberCreateError::BufferSizeExceedsMaxSupportedBufferSizeOfService"};
        }
        options.historyRequest = std::min(service->history, options.queueCapacity);
        options.queueFullPolicy = service->isOverflowing ? iox::popo::QueueFullPolicy::DISCARD_OLDEST_DATA
                                                         : iox::popo::QueueFullPolicy::BLOCK_PRODUCER;
        Subscriber made;
        made.factory = m_factories.number(words[1]);
        made.service = service;
        made.port = std::make_unique<iox::popo::UntypedSubscriber>(description(*service), options);
        m_roudi.connectPorts();
        return m_subscribers.add(std::move(made));
    }

    // A port's loans and samples end with it in iceoryx, so a script that goes on to use them is not for it.
    std::string leave(const Words& words) {
        if (words.at(1)[0] == 'p') {
            auto& leaving = freePublisher(words[1]);
            if (leaving.loans > 0) {
                throw Unsupported{"leaving with loans"};
            }
            --leaving.service->publishers;
            m_publishers.spend(words[1]);
        } else {
            if (m_subscribers.at(words[1]).samples > 0) {
                throw Unsupported{"leaving with samples"};
            }
            m_subscribers.spend(words[1]);
        }
        m_roudi.connectPorts();
        letWaitingGoOn();
        return "ok";
    }

    std::string update(const Words& words) {
        if (words.at(1)[0] == 'p') {
            freePublisher(words[1]);
        } else {
            m_subscribers.at(words[1]);
        }
        return "ok";
    }

    Publisher& freePublisher(const std::string& word) {
        auto& found = m_publishers.at(word);
        if (found.publishing) {
            throw Skip{};
        }
        return found;
    }

    // ---- loans and sends

    // iceoryx bounds no length, and lets each publisher have 8 loans: lower bounds are kept here.
    Loan loanFrom(const std::string& word, uint64_t length, bool isWritten) {
        auto& from = freePublisher(word);
        if (length > from.mostValues) {
            throw Refused{"LoanError::ExceedsMaxLoanSize"};
        }
        if (from.loans >= from.mostLoans && from.mostLoans < iox::MAX_CHUNKS_ALLOCATED_PER_PUBLISHER_SIMULTANEOUSLY) {
            throw Refused{"LoanError::ExceedsMaxLoans"};
        }
        auto loaned = from.port->loan(static_cast<uint32_t>(length * sizeof(uint64_t)), alignof(uint64_t));
        if (loaned.has_error()) {
            refuseLoan(loaned.get_error());
        }
        ++from.loans;
        return Loan{m_publishers.number(word), static_cast<uint64_t*>(loaned.value()), length, isWritten};
    }

    [[noreturn]] static void refuseLoan(iox::popo::AllocationError error) {
        switch (error) {
        case iox::popo::AllocationError::TOO_MANY_CHUNKS_ALLOCATED_IN_PARALLEL:
            throw Refused{"LoanError::ExceedsMaxLoans"};
        case iox::popo::AllocationError::RUNNING_OUT_OF_CHUNKS:
            throw Refused{"LoanError::OutOfMemory"};
        default:
            throw Unsupported{iox::popo::asStringLiteral(error)};
        }
    }

    std::string loan(const Words& words) {
        auto made = loanFrom(words.at(1), numberIn(words.at(2)), true);
        std::fill_n(made.values, made.length, 0);
        return m_loans.add(made);
    }

    std::string loanUninit(const Words& words) {
        const auto length = numberIn(words.at(2));
        return m_loans.add(loanFrom(words.at(1), length, length == 0));
    }

    std::string set(const Words& words) {
        auto& loan = m_loans.at(words.at(1));
        const auto place = numberIn(words.at(2));
        if (!loan.isWritten || place >= loan.length) {
            throw Skip{};
        }
        loan.values[place] = numberIn(words.at(3));
        return "ok";
    }

    static void write(Loan& loan, const Words& words) {
        for (uint64_t at = 0; at < loan.length; ++at) {
            loan.values[at] = numberIn(words[at + 2]);
        }
        loan.isWritten = true;
    }

    std::string fill(const Words& words) {
        auto& loan = m_loans.at(words.at(1));
        if (words.size() - 2 != loan.length) {
            throw Skip{};
        }
        write(loan, words);
        return "ok";
    }

    std::string drop(const Words& words) {
        auto& loan = m_loans.at(words.at(1));
        auto& from = m_publishers.at(loan.publisher);
        from.port->release(loan.values);
        --from.loans;
        m_loans.spend(words[1]);
        return "ok";
    }

    std::string send(const Words& words) {
        auto& loan = m_loans.at(words.at(1));
        if (!loan.isWritten || m_publishers.at(loan.publisher).publishing) {
            throw Skip{};
        }
        const Loan sent = loan;
        m_loans.spend(words[1]);
        return publish(sent);
    }

    std::string put(const Words& words) {
        try {
            auto loan = loanFrom(words.at(1), words.size() - 2, true);
            write(loan, words);
            return publish(loan);
        } catch (const Refused& refusal) {
            throw Refused{"SendError::LoanError(" + refusal.error.substr(refusal.error.rfind(':') + 1) + ")"};
        }
    }

    std::string publish(const Loan& loan) {
        auto& by = m_publishers.at(loan.publisher);
        --by.loans;
        if (by.service->isOverflowing) {
            by.port->publish(loan.values);
            return howManyTookIt(by);
        }
        by.publishing = std::make_unique<Publishing>([port = by.port.get(), values = loan.values] { port->publish(values); });
        return outcome(by);
    }

    std::string retry(const Words& words) {
        auto& by = m_publishers.at(words.at(1));
        if (!by.publishing) {
            throw Skip{};
        }
        return outcome(by);
    }

    static std::string outcome(Publisher& by) {
        if (by.publishing->waits()) {
            return "blocked";
        }
        by.publishing->join();
        by.publishing.reset();
        return howManyTookIt(by);
    }

    static std::string howManyTookIt(const Publisher& by) { return by.port->hasSubscribers() ? "ok _" : "ok 0"; }

    // A publish that waits goes on by itself: each has tried again before the next line is read.
    void letWaitingGoOn() {
        m_publishers.forEach([](auto& it) {
            if (it.publishing) {
                it.publishing->waits();
            }
        });
    }

    // ---- receiving

    std::string receive(const Words& words) {
        auto& by = m_subscribers.at(words.at(1));
        auto taken = by.port->take();
        if (taken.has_error() && taken.get_error() == iox::popo::ChunkReceiveResult::NO_CHUNK_AVAILABLE) {
            return "none";
        }
        letWaitingGoOn();
        if (taken.has_error()) {
            throw Refused{"ReceiveError::ExceedsMaxBorrows"};
        }
        ++by.samples;
        const auto* values = static_cast<const uint64_t*>(taken.value());
        return withValues(m_samples.add(Sample{m_subscribers.number(words[1]), values, by.service->isNumbered}), values);
    }

    std::string has(const Words& words) { return m_subscribers.at(words.at(1)).port->hasData() ? "ok true" : "ok false"; }

    std::string read(const Words& words) { return withValues("ok", m_samples.at(words.at(1)).values); }

    // iceoryx counts from 0.
    std::string sequence(const Words& words) {
        const auto& sample = m_samples.at(words.at(1));
        const auto number = iox::mepoo::ChunkHeader::fromUserPayload(sample.values)->sequenceNumber() + 1;
        return sample.isNumbered ? "ok " + std::to_string(number) : "ok none";
    }

    std::string release(const Words& words) {
        const auto& sample = m_samples.at(words.at(1));
        auto& by = m_subscribers.at(sample.subscriber);
        by.port->release(sample.values);
        --by.samples;
        m_samples.spend(words[1]);
        return "ok";
    }

    RouDi& m_roudi;
    uint64_t m_scripts{0};
    uint64_t m_nodes{0};
    std::map<std::string, std::shared_ptr<Service>> m_services;
    Made<Factory> m_factories{'f'};
    Made<Publisher> m_publishers{'p'};
    Made<Subscriber> m_subscribers{'s'};
    Made<Loan> m_loans{'l'};
    Made<Sample> m_samples{'m'};
};

const std::map<std::string, Script::Command> Script::COMMANDS{
    {"node", &Script::node},
    {"create", &Script::create},
    {"open", &Script::open},
    {"close", &Script::close},
    {"publisher", &Script::publisher},
    {"subscriber", &Script::subscriber},
    {"leave", &Script::leave},
    {"update", &Script::update},
    {"loan", &Script::loan},
    {"loan_uninit", &Script::loanUninit},
    {"set", &Script::set},
    {"fill", &Script::fill},
    {"drop", &Script::drop},
    {"send", &Script::send},
    {"put", &Script::put},
    {"retry", &Script::retry},
    {"receive", &Script::receive},
    {"has", &Script::has},
    {"read", &Script::read},
    {"sequence", &Script::sequence},
    {"release", &Script::release},
};

std::string reply(Script& script, const std::string& line) {
    try {
        if (line != ":reset") {
            return script.answer(line);
        }
        script.end();
        return "ok";
    } catch (const Skip&) {
        return "skip";
    } catch (const Refused& refusal) {
        return "err " + refusal.error;
    } catch (const Unsupported& lacking) {
        return "unsupported " + lacking.why;
    } catch (const std::out_of_range&) {
        return "unsupported words";
    }
}

// Writes to a file descriptor go nowhere from here on. Returns another one for where they went.
int silence(int descriptor) {
    const int before = dup(descriptor);
    const int nowhere = open("/dev/null", O_WRONLY);
    dup2(nowhere, descriptor);
    close(nowhere);
    return before;
}

} // namespace

int main() {
    // While RouDi starts it tells of its memory on standard error, and on standard output that it is ready: neither is a reply.
    FILE* replies = fdopen(silence(STDOUT_FILENO), "w");
    const int errors = silence(STDERR_FILENO);
    iox::log::LogManager::GetLogManager().SetDefaultLogLevel(iox::log::LogLevel::kOff, iox::log::LogLevelOutput::kHideLogLevel);
    // Refusals of iceoryx are among its errors, and are answered; what is worse is told.
    const auto handler = iox::ErrorHandler::setTemporaryErrorHandler([](const iox::Error error, const auto&, const iox::ErrorLevel level) {
        if (level != iox::ErrorLevel::MODERATE) {
            std::cerr << "iceoryx: " << iox::ErrorHandler::toString(error) << std::endl;
        }
    });
    iox::RouDiConfig_t config = iox::RouDiConfig_t().setDefaults();
    iox::roudi::IceOryxRouDiComponents components(config);
    const iox::roudi::RouDi::RoudiStartupParameters parameters{iox::roudi::MonitoringMode::OFF, false};
    RouDi roudi(components.rouDiMemoryManager, components.portManager, parameters);
    iox::runtime::PoshRuntimeSingleProcess runtime("script-adapter");
    dup2(errors, STDERR_FILENO);
    Script script(roudi);
    for (std::string line; std::getline(std::cin, line);) {
        if (std::fprintf(replies, "%s\n", reply(script, line).c_str()) < 0 || std::fflush(replies) != 0) {
            break;
        }
    }
    script.end();
}
