"""Settings of a Scrapy project whose pages are fetched by `crawlgate serve --http`."""
CRAWLGATE_TOKEN = "foobot"
CRAWLGATE_FRONT = "http://127.0.0.1:4080"
# how long a gate that is away is waited for, in seconds
CRAWLGATE_AWAY = 60

# (after all others: 900 is the highest of Scrapy's own)
DOWNLOADER_MIDDLEWARES = {"crawlgate_scrapy.GateMiddleware": 1000}
# the gate is asked for each page, and nothing is fetched in another way
DOWNLOAD_HANDLERS = {"ftp": None, "s3": None, "file": None}
HTTPPROXY_ENABLED = False
# the gate reads the robots.txt files, and sends no cookie
ROBOTSTXT_OBEY = False
COOKIES_ENABLED = False
# requests that wait at the gate for a slow site count, too; so those of hosts with few under way go first
CONCURRENT_REQUESTS = 200
SCHEDULER_PRIORITY_QUEUE = "scrapy.pqueues.DownloaderAwarePriorityQueue"
# a page may wait 30 seconds for its site, and take 300 after a robots.txt that has taken as long
DOWNLOAD_TIMEOUT = 660
