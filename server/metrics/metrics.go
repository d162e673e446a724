// Package metrics tells Prometheus of a server.
package metrics

import (
	"net/http"

	"dsmdb/server/durations"
	"dsmdb/server/lineserver"
	"dsmdb/server/site"
	"github.com/prometheus/client_golang/prometheus"
	"github.com/prometheus/client_golang/prometheus/collectors"
	"github.com/prometheus/client_golang/prometheus/promhttp"
)

// New returns the handler of a server's metrics.
func New(of *site.Database, lines *lineserver.Server) http.Handler {
	all := prometheus.NewRegistry()
	all.MustRegister(collectors.NewGoCollector(), collectors.NewProcessCollector(collectors.ProcessCollectorOpts{}), &collector{of, lines})
	return promhttp.HandlerFor(all, promhttp.HandlerOpts{})
}

type collector struct {
	site  *site.Database
	lines *lineserver.Server
}

func desc(name, help string, labels ...string) *prometheus.Desc {
	return prometheus.NewDesc("dsmdb_"+name, help, labels, nil)
}

var (
	number       = desc("order", "Number of the order among those of its database.")
	position     = desc("position", "Strings of all orders that the engine has answered.")
	end          = desc("end", "Strings of all orders that the server has read.")
	backlog      = desc("backlog_bytes", "Bytes of strings that wait for the engine.")
	texts        = desc("strings_total", "What became of the order's strings.", "as")
	answers      = desc("answers_total", "What requests were answered.", "answer")
	latency      = desc("call_seconds", "From the reading of a call to its answer.")
	appends      = desc("append_seconds", "From handing a string to the order to its being counted there.")
	forces       = desc("force_seconds", "The forcing of the order's strings, or of the journal's, to the disk.")
	etcdFailures = desc("etcd_failures_total", "Requests to etcd that failed.")
	batches      = desc("batches_total", "Batches of strings that the server has appended, each forced once.")
	strangers    = desc("strangers_total", "Keys of the order in etcd that take no place in it.")
	waiting      = desc("waiting_requests", "Requests that aren't answered.")
	engineLines  = desc("engine_waiting_lines", "Lines that the engine hasn't answered.")
	engineTime   = desc("engine_processor_seconds_total", "Processor time of the engine that runs.")
	engineMemory = desc("engine_memory_bytes", "Resident memory of the engine.")
	restarts     = desc("engine_restarts_total", "How often the engine was started again.")
	dropped      = desc("dropped_total", "Calls whose clients had left before they were appended.")
	retried      = desc("retried_total", "Tries of calls that were in conflict or stale.")
	connections  = desc("connections", "Connections of the line protocol.")
	refusedDesc  = desc("connections_refused_total", "Connections that were refused for their number.")
	caughtUp     = desc("caught_up", "Whether the server has what stood in the order at its start.")
	orderReached = desc("order_reached", "Whether the order can be reached.")
	divergence   = desc("divergence", "Whether another server came to other answers: 1, or 2 where this one answers nobody.")
)

// Describe implements prometheus.Collector.
func (c *collector) Describe(to chan<- *prometheus.Desc) {
	for _, it := range []*prometheus.Desc{
		number, position, end, backlog, texts, answers, latency, appends, forces, etcdFailures, batches, strangers, waiting, engineLines, engineTime,
		engineMemory, restarts, dropped, retried, connections, refusedDesc, caughtUp, orderReached, divergence,
	} {
		to <- it
	}
}

// sink is where metrics go.
type sink chan<- prometheus.Metric

func (to sink) gauge(of *prometheus.Desc, value float64) {
	to <- prometheus.MustNewConstMetric(of, prometheus.GaugeValue, value)
}

func (to sink) counter(of *prometheus.Desc, value uint64, labels ...string) {
	to <- prometheus.MustNewConstMetric(of, prometheus.CounterValue, float64(value), labels...)
}

// Collect implements prometheus.Collector.
func (c *collector) Collect(metrics chan<- prometheus.Metric) {
	to := sink(metrics)
	open, refused := c.lines.Open()
	to.gauge(connections, float64(open))
	to.counter(refusedDesc, refused)
	order := c.site.Order()
	if etcd, is := order.(interface {
		Strangers() uint64
		Failures() uint64
	}); is {
		to.counter(strangers, etcd.Strangers())
		to.counter(etcdFailures, etcd.Failures())
	}
	if disk, is := order.(interface{ Forces() durations.Histogram }); is {
		to.histogram(forces, disk.Forces())
	}
	if it, is := c.site.Snapshot(); is {
		to.snapshot(&it)
	}
}

func (to sink) snapshot(it *site.Snapshot) {
	to.gauge(number, float64(it.Order))
	to.gauge(position, float64(it.Position))
	to.gauge(end, float64(it.End))
	to.gauge(backlog, float64(it.Backlog))
	to.gauge(waiting, float64(it.Waiting))
	to.gauge(engineLines, float64(it.EngineLines))
	to.gauge(engineMemory, float64(it.EngineMemory))
	to.gauge(caughtUp, truth(it.CaughtUp))
	to.gauge(orderReached, truth(it.Away == ""))
	to.gauge(divergence, truth(it.Diverged)+truth(it.Silent))
	to.counter(texts, it.Counts.Committed, "committed")
	to.counter(texts, it.Counts.Refused, "refused")
	to.counter(texts, it.Counts.Nothing-it.Counts.Untrue, "nothing")
	to.counter(texts, it.Counts.Untrue, "untrue")
	to.counter(restarts, it.EngineRestarts)
	to.counter(dropped, it.Dropped)
	to.counter(retried, it.Retried)
	to <- prometheus.MustNewConstMetric(engineTime, prometheus.CounterValue, it.EngineTime.Seconds())
	for word, count := range it.Answers {
		to.counter(answers, count, word)
	}
	to.counter(batches, it.Batches)
	to.histogram(latency, it.Calls)
	to.histogram(appends, it.Appends)
}

// histogram tells durations by powers of two of a nanosecond, from 16 microseconds to 69 seconds.
func (to sink) histogram(of *prometheus.Desc, it durations.Histogram) {
	buckets, count := map[float64]uint64{}, uint64(0)
	for bits, more := range it.Counts {
		count += more
		if bits >= 14 && bits <= 36 {
			buckets[float64(uint64(1)<<bits)*1e-9] = count
		}
	}
	to <- prometheus.MustNewConstHistogram(of, count, it.Sum.Seconds(), buckets)
}

func truth(is bool) float64 {
	if is {
		return 1
	}
	return 0
}
